/* defines: read */
/* POSIX: descriptor 0 is the input. */
#include <errno.h>

long read(int from, void *to, size_t n)
{
    unsigned char *a = to;
    size_t i;
    int c;
    if (from != 0) {
        errno = EBADF;
        return -1;
    }
    for (i = 0; i < n; i++) {
        c = (getchar)();
        if (c < 0) break;
        a[i] = c;
    }
    return (long)i;
}
