/* defines: perror */
/* C11 7.21.10.4. */
#include <errno.h>
char *strerror(int);

void perror(const char *s)
{
    char *t = strerror(errno);
    if (s && *s) {
        while (*s) putchar(*s++);
        putchar(':');
        putchar(' ');
    }
    while (*t) putchar(*t++);
    putchar('\n');
}
