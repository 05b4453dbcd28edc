/* defines: __cheric_print_9 */
/* `printf` and its kin with 9 arguments behind the format. */
int __cheric_print(const char *, char *, size_t, const uintptr_t *);

int __cheric_print_9(const char *at, char *to, size_t most, uintptr_t a, uintptr_t b, uintptr_t c, uintptr_t d,
    uintptr_t e, uintptr_t f, uintptr_t g, uintptr_t h, uintptr_t i)
{
    uintptr_t from[9] = {a, b, c, d, e, f, g, h, i};
    return __cheric_print(at, to, most, from);
}
