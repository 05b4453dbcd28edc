/* defines: strchr */
/* C11 7.24.5.2. */
char *strchr(const char *s, int c)
{
    for (; *s != (char)c; s++) if (!*s) return 0;
    return (char *)s;
}
