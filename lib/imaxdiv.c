/* defines: imaxdiv */
/* C11 7.8.2.2. */
#include <inttypes.h>

imaxdiv_t imaxdiv(long v, long by)
{
    imaxdiv_t both;
    both.quot = v / by;
    both.rem = v % by;
    return both;
}
