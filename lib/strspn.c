/* defines: strspn */
/* C11 7.24.5.6. */
size_t strspn(const char *s, const char *t)
{
    size_t n, i;
    for (n = 0; s[n]; n++) {
        for (i = 0; t[i] && t[i] != s[n]; i++) continue;
        if (!t[i]) break;
    }
    return n;
}
