/* defines: fputs */
/* C11 7.21.7.4. */
#include <stdio.h>

int fputs(const char *s, FILE *f)
{
    for (; *s; s++) if (fputc(*s, f) < 0) return -1;
    return 1;
}
