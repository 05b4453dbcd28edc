/* defines: bcmp */
/* BSD. */
int bcmp(const void *x, const void *y, size_t n)
{
    const unsigned char *a = x, *b = y;
    size_t i;
    for (i = 0; i < n; i++) if (a[i] != b[i]) return 1;
    return 0;
}
