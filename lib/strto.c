/* defines: __cheric_strto */
/* The work of C11 7.22.1.4: the number is read as a sign and a magnitude, with most magnitude for each sign. Where it
   is over, `errno` is ERANGE and the magnitude the most one. A base out of its range is EINVAL and 0. */
#include <errno.h>

unsigned long __cheric_strto(const char *s, char **end, int b, unsigned long most, unsigned long most_below)
{
    const char *p = s, *after = s;
    unsigned long v = 0;
    unsigned d;
    int minus, over = 0;
    if (b < 0 || b == 1 || b > 36) {
        if (end) *end = (char *)s;
        errno = EINVAL;
        return 0;
    }
    while (*p == ' ' || (*p >= '\t' && *p <= '\r')) p++;
    minus = *p == '-';
    if (*p == '-' || *p == '+') p++;
    if ((b == 0 || b == 16) && p[0] == '0' && (p[1] == 'x' || p[1] == 'X')) {
        /* Without a digit behind it the subject is the `0`. */
        after = p + 1;
        p += 2;
        b = 16;
    } else if (b == 0) b = *p == '0' ? 8 : 10;
    if (minus) most = most_below;
    for (;; after = ++p) {
        d = *p;
        if (d >= '0' && d <= '9') d -= '0';
        else if (d >= 'A' && d <= 'Z') d -= 'A' - 10;
        else if (d >= 'a' && d <= 'z') d -= 'a' - 10;
        else break;
        if (d >= (unsigned)b) break;
        if (v > (most - d) / b) over = 1;
        v = v * b + d;
    }
    if (end) *end = (char *)after;
    if (over) {
        errno = ERANGE;
        v = most;
        /* The greatest number of an unsigned type has no sign. */
        if (most == most_below) return v;
    }
    return minus ? -v : v;
}
