/* defines: __cheric_scan_1 */
/* `scanf` and its kin with 1 argument behind the format. */
#include <stdio.h>

int __cheric_scan(const char *, FILE *, const char *, const uintptr_t *);

int __cheric_scan_1(const char *s, FILE *f, const char *t, uintptr_t a)
{
    uintptr_t to[1] = {a};
    return __cheric_scan(s, f, t, to);
}
