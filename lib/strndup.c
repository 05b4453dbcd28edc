/* defines: strndup */
/* POSIX: a copy of at most `most` bytes from `malloc`, or null. */
char *strndup(const char *s, size_t most)
{
    size_t n = 0, i;
    char *to;
    while (n < most && s[n]) n++;
    to = malloc(n + 1);
    if (to) {
        for (i = 0; i < n; i++) to[i] = s[i];
        to[n] = 0;
    }
    return to;
}
