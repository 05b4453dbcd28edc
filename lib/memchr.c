/* defines: memchr */
/* C11 7.24.5.1. */
void *memchr(const void *s, int c, size_t n)
{
    const unsigned char *a = s;
    size_t i;
    for (i = 0; i < n; i++) if (a[i] == (unsigned char)c) return (void *)(a + i);
    return 0;
}
