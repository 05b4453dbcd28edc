/* defines: __cheric_print_1 */
/* `printf` and its kin with 1 argument behind the format. */
int __cheric_print(const char *, char *, size_t, const uintptr_t *);

int __cheric_print_1(const char *at, char *to, size_t most, uintptr_t a)
{
    uintptr_t from[1] = {a};
    return __cheric_print(at, to, most, from);
}
