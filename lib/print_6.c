/* defines: __cheric_print_6 */
/* `printf` and its kin with 6 arguments behind the format. */
int __cheric_print(const char *, char *, size_t, const uintptr_t *);

int __cheric_print_6(const char *at, char *to, size_t most, uintptr_t a, uintptr_t b, uintptr_t c, uintptr_t d,
    uintptr_t e, uintptr_t f)
{
    uintptr_t from[6] = {a, b, c, d, e, f};
    return __cheric_print(at, to, most, from);
}
