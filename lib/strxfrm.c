/* defines: strxfrm */
/* C11 7.24.4.5, in the C locale. */
size_t strxfrm(char *to, const char *s, size_t n)
{
    size_t i;
    for (i = 0; s[i]; i++) if (i < n) to[i] = s[i];
    if (i < n) to[i] = 0;
    return i;
}
