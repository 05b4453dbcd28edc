/* defines: __cheric_print_0 */
/* `printf` and its kin with 0 arguments behind the format. */
int __cheric_print(const char *, char *, size_t, const uintptr_t *);

int __cheric_print_0(const char *at, char *to, size_t most)
{
    return __cheric_print(at, to, most, 0);
}
