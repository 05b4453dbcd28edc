/* defines: atoll */
/* C11 7.22.1.2. */
unsigned long __cheric_ato(const char *);

long long atoll(const char *s)
{
    return __cheric_ato(s);
}
