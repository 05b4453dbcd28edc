/* defines: rindex */
/* An old name of `strrchr`. */
char *rindex(const char *s, int c)
{
    const char *last = 0;
    for (; *s; s++) if (*s == (char)c) last = s;
    return (char *)((char)c ? last : s);
}
