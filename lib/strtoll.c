/* defines: strtoll */
/* C11 7.22.1.4. */
unsigned long __cheric_strto(const char *, char **, int, unsigned long, unsigned long);

long long strtoll(const char *s, char **end, int b)
{
    return __cheric_strto(s, end, b, -1ul >> 1, 1ul << 63);
}
