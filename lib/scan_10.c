/* defines: __cheric_scan_10 */
/* `scanf` and its kin with 10 arguments behind the format. */
#include <stdio.h>

int __cheric_scan(const char *, FILE *, const char *, const uintptr_t *);

int __cheric_scan_10(const char *s, FILE *f, const char *t, uintptr_t a, uintptr_t b, uintptr_t c,
    uintptr_t d, uintptr_t e, uintptr_t g, uintptr_t h, uintptr_t i, uintptr_t j, uintptr_t k)
{
    uintptr_t to[10] = {a, b, c, d, e, g, h, i, j, k};
    return __cheric_scan(s, f, t, to);
}
