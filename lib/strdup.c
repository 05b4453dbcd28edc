/* defines: strdup */
/* POSIX: a copy from `malloc`, or null. */
char *strdup(const char *s)
{
    size_t n = 0, i;
    char *to;
    while (s[n]) n++;
    to = malloc(n + 1);
    if (to) for (i = 0; i <= n; i++) to[i] = s[i];
    return to;
}
