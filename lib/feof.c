/* defines: feof */
/* C11 7.21.10.2. */
#include <stdio.h>

int feof(FILE *f)
{
    return f->__cheric_ended;
}
