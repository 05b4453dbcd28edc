/* defines: memccpy */
/* POSIX: copies up to a byte and gives what follows it. */
void *memccpy(void *to, const void *from, int c, size_t n)
{
    unsigned char *a = to;
    const unsigned char *b = from;
    size_t i;
    for (i = 0; i < n; i++) {
        a[i] = b[i];
        if (b[i] == (unsigned char)c) return a + i + 1;
    }
    return 0;
}
