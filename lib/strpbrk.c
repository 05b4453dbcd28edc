/* defines: strpbrk */
/* C11 7.24.5.4. */
char *strpbrk(const char *s, const char *t)
{
    size_t i;
    for (; *s; s++)
        for (i = 0; t[i]; i++) if (t[i] == *s) return (char *)s;
    return 0;
}
