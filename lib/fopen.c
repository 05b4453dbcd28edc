/* defines: fopen */
/* C11 7.21.5.3: there are no files. */
#include <errno.h>
#include <stdio.h>

FILE *fopen(const char *s, const char *m)
{
    (void)s;
    (void)m;
    errno = ENOENT;
    return 0;
}
