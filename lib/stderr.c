/* defines: __cheric_stderr */
/* C11 7.21.1p3. */
#include <stdio.h>

FILE __cheric_stderr = {2, -1, 0, 0};
