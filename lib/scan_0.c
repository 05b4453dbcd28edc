/* defines: __cheric_scan_0 */
/* `scanf` and its kin with 0 arguments behind the format. */
#include <stdio.h>

int __cheric_scan(const char *, FILE *, const char *, const uintptr_t *);

int __cheric_scan_0(const char *s, FILE *f, const char *t)
{
    return __cheric_scan(s, f, t, 0);
}
