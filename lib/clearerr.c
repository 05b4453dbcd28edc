/* defines: clearerr */
/* C11 7.21.10.1. */
#include <stdio.h>

void clearerr(FILE *f)
{
    f->__cheric_ended = 0;
    f->__cheric_failed = 0;
}
