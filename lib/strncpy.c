/* defines: strncpy */
/* C11 7.24.2.4. */
char *strncpy(char *to, const char *s, size_t n)
{
    size_t i;
    for (i = 0; i < n && s[i]; i++) to[i] = s[i];
    for (; i < n; i++) to[i] = 0;
    return to;
}
