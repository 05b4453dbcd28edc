/* defines: realloc */
/* C11 7.22.3.5: always a new place. How long the old one was is in its pointer, which is the pointer of the whole
   allocation: both places are aligned to 16, and granules are moved with their tags. */
struct __cheric_realloc_granule {
    uintptr_t granule;
};
struct __cheric_realloc_byte {
    unsigned char byte;
};

void *realloc(void *from, size_t n)
{
    unsigned char *p = malloc(n), *q = from;
    size_t most, i = 0;
    if (!p || !q) return p;
    most = cheri_length_get(q);
    if (most > n) most = n;
    for (; i + 16 <= most; i += 16)
        *(struct __cheric_realloc_granule *)(p + i) = *(struct __cheric_realloc_granule *)(q + i);
    for (; i < most; i++) *(struct __cheric_realloc_byte *)(p + i) = *(struct __cheric_realloc_byte *)(q + i);
    return p;
}
