/* defines: ldiv */
/* C11 7.22.6.2. */
#include <stdlib.h>

ldiv_t ldiv(long v, long by)
{
    ldiv_t both;
    both.quot = v / by;
    both.rem = v % by;
    return both;
}
