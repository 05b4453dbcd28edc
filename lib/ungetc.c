/* defines: ungetc */
/* C11 7.21.7.10: one byte. */
#include <stdio.h>

int ungetc(int c, FILE *f)
{
    if (c == -1 || f->__cheric_pushed >= 0) return -1;
    f->__cheric_ended = 0;
    f->__cheric_pushed = (unsigned char)c;
    return (unsigned char)c;
}
