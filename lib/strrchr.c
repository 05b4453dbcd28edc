/* defines: strrchr */
/* C11 7.24.5.5. */
char *strrchr(const char *s, int c)
{
    const char *last = 0;
    for (; *s; s++) if (*s == (char)c) last = s;
    return (char *)((char)c ? last : s);
}
