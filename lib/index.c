/* defines: index */
/* An old name of `strchr`. */
char *index(const char *s, int c)
{
    for (; *s != (char)c; s++) if (!*s) return 0;
    return (char *)s;
}
