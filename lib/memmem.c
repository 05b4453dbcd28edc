/* defines: memmem */
/* GNU: the first place of some bytes among others. */
void *memmem(const void *x, size_t n, const void *y, size_t k)
{
    const unsigned char *a = x, *b = y;
    size_t i, j;
    for (i = 0; i + k <= n; i++) {
        for (j = 0; j < k && a[i + j] == b[j]; j++) continue;
        if (j == k) return (void *)(a + i);
    }
    return 0;
}
