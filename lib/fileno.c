/* defines: fileno */
/* POSIX. */
#include <stdio.h>

int fileno(FILE *f)
{
    return f->__cheric_number;
}
