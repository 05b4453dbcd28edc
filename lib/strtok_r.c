/* defines: strtok_r */
/* POSIX: `strtok` with the rest in a place of the caller. */
size_t strspn(const char *, const char *);
size_t strcspn(const char *, const char *);

char *strtok_r(char *s, const char *t, char **after)
{
    if (!s) s = *after;
    if (!s) return 0;
    s += strspn(s, t);
    *after = 0;
    if (!*s) return 0;
    *after = s + strcspn(s, t);
    if (**after) *(*after)++ = 0;
    else *after = 0;
    return s;
}
