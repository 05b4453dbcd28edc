/* defines: strnlen */
/* POSIX: the length, at most `most`. */
size_t strnlen(const char *s, size_t most)
{
    size_t n = 0;
    while (n < most && s[n]) n++;
    return n;
}
