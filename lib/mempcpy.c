/* defines: mempcpy */
/* GNU: `memcpy` that gives the end. */
void *memcpy(void *, const void *, size_t);

void *mempcpy(void *to, const void *from, size_t n)
{
    return (char *)memcpy(to, from, n) + n;
}
