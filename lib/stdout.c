/* defines: __cheric_stdout */
/* C11 7.21.1p3. */
#include <stdio.h>

FILE __cheric_stdout = {1, -1, 0, 0};
