/* defines: strtoumax */
/* C11 7.8.2.3. */
unsigned long __cheric_strto(const char *, char **, int, unsigned long, unsigned long);

unsigned long strtoumax(const char *s, char **end, int b)
{
    return __cheric_strto(s, end, b, -1ul, -1ul);
}
