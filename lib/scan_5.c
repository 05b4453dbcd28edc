/* defines: __cheric_scan_5 */
/* `scanf` and its kin with 5 arguments behind the format. */
#include <stdio.h>

int __cheric_scan(const char *, FILE *, const char *, const uintptr_t *);

int __cheric_scan_5(const char *s, FILE *f, const char *t, uintptr_t a, uintptr_t b, uintptr_t c,
    uintptr_t d, uintptr_t e)
{
    uintptr_t to[5] = {a, b, c, d, e};
    return __cheric_scan(s, f, t, to);
}
