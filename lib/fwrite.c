/* defines: fwrite */
/* C11 7.21.8.2. */
#include <stdio.h>

size_t fwrite(const void *from, size_t each, size_t n, FILE *f)
{
    const unsigned char *a = from;
    size_t i;
    for (i = 0; i < each * n; i++) if (fputc(a[i], f) < 0) return i / each;
    return each ? n : 0;
}
