/* defines: __cheric_print_4 */
/* `printf` and its kin with 4 arguments behind the format. */
int __cheric_print(const char *, char *, size_t, const uintptr_t *);

int __cheric_print_4(const char *at, char *to, size_t most, uintptr_t a, uintptr_t b, uintptr_t c, uintptr_t d)
{
    uintptr_t from[4] = {a, b, c, d};
    return __cheric_print(at, to, most, from);
}
