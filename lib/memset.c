/* defines: memset */
/* C11 7.24.6.1. */
void *memset(void *to, int c, size_t n)
{
    unsigned char *a = to;
    size_t i;
    for (i = 0; i < n; i++) a[i] = c;
    return to;
}
