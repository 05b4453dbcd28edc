/* defines: reallocarray */
/* BSD: `realloc` whose product is checked. */
void *realloc(void *, size_t);

void *reallocarray(void *from, size_t n, size_t each)
{
    if (each && n > (size_t)-1 / each) return 0;
    return realloc(from, n * each);
}
