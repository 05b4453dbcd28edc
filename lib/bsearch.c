/* defines: bsearch */
/* C11 7.22.5.1. */
void *bsearch(const void *k, const void *from, size_t n, size_t each,
    int (*compare)(const void *, const void *))
{
    const char *a = from, *b;
    int c;
    while (n) {
        b = a + n / 2 * each;
        c = compare(k, b);
        if (c == 0) return (void *)b;
        if (c > 0) {
            a = b + each;
            n--;
        }
        n /= 2;
    }
    return 0;
}
