/* defines: __cheric_print_14 */
/* `printf` and its kin with 14 arguments behind the format. */
int __cheric_print(const char *, char *, size_t, const uintptr_t *);

int __cheric_print_14(const char *at, char *to, size_t most, uintptr_t a, uintptr_t b, uintptr_t c, uintptr_t d,
    uintptr_t e, uintptr_t f, uintptr_t g, uintptr_t h, uintptr_t i, uintptr_t j, uintptr_t k, uintptr_t l,
    uintptr_t m, uintptr_t n)
{
    uintptr_t from[14] = {a, b, c, d, e, f, g, h, i, j, k, l, m, n};
    return __cheric_print(at, to, most, from);
}
