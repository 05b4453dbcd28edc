/* defines: calloc */
/* C11 7.22.3.2. The heap begins as zeros; the strict meaning asks that they be written. */
void *calloc(size_t n, size_t each)
{
#ifdef __CHERIC_MEAN__
    unsigned char *p;
    size_t i;
#endif
    if (each && n > (size_t)-1 / each) return 0;
#ifdef __CHERIC_MEAN__
    p = malloc(n * each);
    if (p) for (i = 0; i < n * each; i++) p[i] = 0;
    return p;
#else
    return malloc(n * each);
#endif
}
