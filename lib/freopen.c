/* defines: freopen */
/* C11 7.21.5.4: there are no files. */
#include <errno.h>
#include <stdio.h>

FILE *freopen(const char *s, const char *m, FILE *f)
{
    (void)s;
    (void)m;
    (void)f;
    errno = ENOENT;
    return 0;
}
