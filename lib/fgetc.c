/* defines: fgetc */
/* C11 7.21.7.1: standard input alone can be read. */
#include <stdio.h>

int fgetc(FILE *f)
{
    int c = f->__cheric_pushed;
    f->__cheric_pushed = -1;
    if (c >= 0) return c;
    if (f->__cheric_number != 0) {
        f->__cheric_failed = 1;
        return -1;
    }
    c = f->__cheric_ended ? -1 : (getchar)();
    if (c < 0) f->__cheric_ended = 1;
    return c;
}
