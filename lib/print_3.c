/* defines: __cheric_print_3 */
/* `printf` and its kin with 3 arguments behind the format. */
int __cheric_print(const char *, char *, size_t, const uintptr_t *);

int __cheric_print_3(const char *at, char *to, size_t most, uintptr_t a, uintptr_t b, uintptr_t c)
{
    uintptr_t from[3] = {a, b, c};
    return __cheric_print(at, to, most, from);
}
