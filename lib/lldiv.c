/* defines: lldiv */
/* C11 7.22.6.2. */
#include <stdlib.h>

lldiv_t lldiv(long long v, long long by)
{
    lldiv_t both;
    both.quot = v / by;
    both.rem = v % by;
    return both;
}
