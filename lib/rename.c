/* defines: rename */
/* C11 7.21.4.2: there are no files. */
#include <errno.h>

int rename(const char *from, const char *to)
{
    (void)from;
    (void)to;
    errno = ENOENT;
    return -1;
}
