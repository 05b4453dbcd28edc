/* defines: rewind */
/* C11 7.21.9.5: a stream has no place that could be set; the indicator of errors is cleared. */
#include <stdio.h>

void rewind(FILE *f)
{
    f->__cheric_failed = 0;
}
