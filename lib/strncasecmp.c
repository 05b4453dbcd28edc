/* defines: strncasecmp */
/* POSIX: `strncmp` of small letters. */
int strncasecmp(const char *s, const char *t, size_t n)
{
    int a, b;
    for (; n; n--) {
        a = *s++;
        b = *t++;
        if (a >= 'A' && a <= 'Z') a += 'a' - 'A';
        if (b >= 'A' && b <= 'Z') b += 'a' - 'A';
        if (!a || a != b) return a - b;
    }
    return 0;
}
