/* defines: __cheric_stdin */
/* C11 7.21.1p3, 7.21.7.10: no byte is pushed back at first. */
#include <stdio.h>

FILE __cheric_stdin = {0, -1, 0, 0};
