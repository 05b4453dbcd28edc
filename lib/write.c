/* defines: write */
/* POSIX: descriptors 1 and 2 are the output. */
#include <errno.h>

long write(int to, const void *from, size_t n)
{
    const unsigned char *a = from;
    size_t i;
    if (to != 1 && to != 2) {
        errno = EBADF;
        return -1;
    }
    for (i = 0; i < n; i++) putchar(a[i]);
    return (long)n;
}
