/* defines: fclose */
/* C11 7.21.5.1. */
#include <stdio.h>

int fclose(FILE *f)
{
    (void)f;
    return 0;
}
