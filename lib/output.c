/* defines: __cheric_output */
/* The place of a format that goes to a stream: none. A null pointer, as `fopen` gives it, is caught here: it has no
   member. */
#include <stdio.h>

char *__cheric_output(FILE *f)
{
    if (f->__cheric_number == 0) f->__cheric_failed = 1;
    return 0;
}
