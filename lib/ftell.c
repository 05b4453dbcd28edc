/* defines: ftell */
/* C11 7.21.9.4: a stream has no place that could be told. */
#include <errno.h>
#include <stdio.h>

long ftell(FILE *f)
{
    (void)f;
    errno = ESPIPE;
    return -1;
}
