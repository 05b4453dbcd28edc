/* defines: fread */
/* C11 7.21.8.1. */
#include <stdio.h>

size_t fread(void *to, size_t each, size_t n, FILE *f)
{
    unsigned char *a = to;
    size_t i;
    int c;
    for (i = 0; i < each * n; i++) {
        c = fgetc(f);
        if (c < 0) return i / each;
        a[i] = c;
    }
    return each ? n : 0;
}
