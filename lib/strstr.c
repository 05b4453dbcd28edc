/* defines: strstr */
/* C11 7.24.5.7. */
char *strstr(const char *s, const char *t)
{
    size_t i;
    for (;; s++) {
        for (i = 0; t[i] && s[i] == t[i]; i++) continue;
        if (!t[i]) return (char *)s;
        if (!s[i]) return 0;
    }
}
