/* defines: bzero */
/* BSD. */
void bzero(void *to, size_t n)
{
    unsigned char *a = to;
    size_t i;
    for (i = 0; i < n; i++) a[i] = 0;
}
