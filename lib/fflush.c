/* defines: fflush */
/* C11 7.21.5.2: nothing is kept back. */
#include <stdio.h>

int fflush(FILE *f)
{
    (void)f;
    return 0;
}
