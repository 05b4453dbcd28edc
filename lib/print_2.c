/* defines: __cheric_print_2 */
/* `printf` and its kin with 2 arguments behind the format. */
int __cheric_print(const char *, char *, size_t, const uintptr_t *);

int __cheric_print_2(const char *at, char *to, size_t most, uintptr_t a, uintptr_t b)
{
    uintptr_t from[2] = {a, b};
    return __cheric_print(at, to, most, from);
}
