/* defines: fputc */
/* C11 7.21.7.3. */
#include <stdio.h>

int fputc(int c, FILE *f)
{
    if (f->__cheric_number == 0) {
        f->__cheric_failed = 1;
        return -1;
    }
    return putchar(c);
}
