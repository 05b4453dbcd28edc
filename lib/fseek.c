/* defines: fseek */
/* C11 7.21.9.2: a stream has no place that could be set. */
#include <errno.h>
#include <stdio.h>

int fseek(FILE *f, long n, int from)
{
    (void)f;
    (void)n;
    (void)from;
    errno = ESPIPE;
    return -1;
}
