/* defines: strcspn */
/* C11 7.24.5.3. */
size_t strcspn(const char *s, const char *t)
{
    size_t n, i;
    for (n = 0; s[n]; n++)
        for (i = 0; t[i]; i++) if (t[i] == s[n]) return n;
    return n;
}
