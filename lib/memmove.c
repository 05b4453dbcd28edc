/* defines: memmove */
/* C11 7.24.2.2. As `memcpy`, and from the end where the target begins inside the source. The strict meaning, which
   knows no addresses, finds that out by equality. */
#ifdef __CHERIC_MEAN__
struct __cheric_memmove_byte {
    unsigned char byte;
};

void *memmove(void *to, const void *from, size_t n)
{
    struct __cheric_memmove_byte *a = to;
    const struct __cheric_memmove_byte *b = from;
    size_t i, inside = 0;
    for (i = 1; i < n; i++) if (a == b + i) inside = 1;
    for (i = 0; i < n; i++) a[inside ? n - 1 - i : i] = b[inside ? n - 1 - i : i];
    return to;
}
#else
void *memcpy(void *, const void *, size_t);

void *memmove(void *to, const void *from, size_t n)
{
    unsigned char *a = to;
    const unsigned char *b = from;
    if ((ptraddr_t)a - (ptraddr_t)b >= n) return memcpy(to, from, n);
    if ((((ptraddr_t)a ^ (ptraddr_t)b) & 15) == 0) {
        for (; n && ((ptraddr_t)(a + n) & 15) != 0; n--) a[n - 1] = b[n - 1];
        for (; n >= 16; n -= 16) *(uintptr_t *)(a + n - 16) = *(const uintptr_t *)(b + n - 16);
    }
    for (; n; n--) a[n - 1] = b[n - 1];
    return to;
}
#endif
