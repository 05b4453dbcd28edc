/* defines: fgets */
/* C11 7.21.7.2. */
#include <stdio.h>

char *fgets(char *to, int n, FILE *f)
{
    int i = 0, c = 0;
    while (i < n - 1 && c != '\n') {
        c = fgetc(f);
        if (c < 0) break;
        to[i++] = c;
    }
    if (n < 1 || (i == 0 && c < 0)) return 0;
    to[i] = 0;
    return to;
}
