/* defines: div */
/* C11 7.22.6.2. */
#include <stdlib.h>

div_t div(int v, int by)
{
    div_t both;
    both.quot = v / by;
    both.rem = v % by;
    return both;
}
