/* defines: ferror */
/* C11 7.21.10.3. */
#include <stdio.h>

int ferror(FILE *f)
{
    return f->__cheric_failed;
}
