/* defines: __cheric_print_7 */
/* `printf` and its kin with 7 arguments behind the format. */
int __cheric_print(const char *, char *, size_t, const uintptr_t *);

int __cheric_print_7(const char *at, char *to, size_t most, uintptr_t a, uintptr_t b, uintptr_t c, uintptr_t d,
    uintptr_t e, uintptr_t f, uintptr_t g)
{
    uintptr_t from[7] = {a, b, c, d, e, f, g};
    return __cheric_print(at, to, most, from);
}
