/* defines: memrchr */
/* GNU: the last such byte. */
void *memrchr(const void *s, int c, size_t n)
{
    const unsigned char *a = s;
    while (n--) if (a[n] == (unsigned char)c) return (void *)(a + n);
    return 0;
}
