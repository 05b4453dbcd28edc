/* defines: setbuf */
/* C11 7.21.5.5: nothing is kept back. */
#include <stdio.h>

void setbuf(FILE *f, char *to)
{
    (void)f;
    (void)to;
}
