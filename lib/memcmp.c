/* defines: memcmp */
/* C11 7.24.4.1. */
int memcmp(const void *x, const void *y, size_t n)
{
    const unsigned char *a = x, *b = y;
    size_t i;
    for (i = 0; i < n; i++) if (a[i] != b[i]) return a[i] - b[i];
    return 0;
}
