/* defines: strsep */
/* BSD: the next token, which may be empty. */
size_t strcspn(const char *, const char *);

char *strsep(char **after, const char *t)
{
    char *s = *after;
    if (!s) return 0;
    *after = s + strcspn(s, t);
    if (**after) *(*after)++ = 0;
    else *after = 0;
    return s;
}
