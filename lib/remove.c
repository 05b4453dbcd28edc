/* defines: remove */
/* C11 7.21.4.1: there are no files. */
#include <errno.h>

int remove(const char *s)
{
    (void)s;
    errno = ENOENT;
    return -1;
}
