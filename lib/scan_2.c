/* defines: __cheric_scan_2 */
/* `scanf` and its kin with 2 arguments behind the format. */
#include <stdio.h>

int __cheric_scan(const char *, FILE *, const char *, const uintptr_t *);

int __cheric_scan_2(const char *s, FILE *f, const char *t, uintptr_t a, uintptr_t b)
{
    uintptr_t to[2] = {a, b};
    return __cheric_scan(s, f, t, to);
}
