/* defines: memcpy */
/* C11 7.24.2.1. Where both places have one distance from a multiple of 16, whole granules are moved by loads and
   stores of capabilities, so that pointers among the bytes keep their tags. In the strict meaning, which knows no
   addresses, bytes are moved each as a struct, by which an unwritten one is carried on: a byte of a pointer ends that
   run. */
#ifdef __CHERIC_MEAN__
struct __cheric_memcpy_byte {
    unsigned char byte;
};

void *memcpy(void *to, const void *from, size_t n)
{
    struct __cheric_memcpy_byte *a = to;
    const struct __cheric_memcpy_byte *b = from;
    size_t i;
    for (i = 0; i < n; i++) a[i] = b[i];
    return to;
}
#else
void *memcpy(void *to, const void *from, size_t n)
{
    unsigned char *a = to;
    const unsigned char *b = from;
    size_t i = 0;
    if (n >= 16 && (((ptraddr_t)a ^ (ptraddr_t)b) & 15) == 0) {
        for (; ((ptraddr_t)(a + i) & 15) != 0; i++) a[i] = b[i];
        for (; i + 16 <= n; i += 16) *(uintptr_t *)(a + i) = *(const uintptr_t *)(b + i);
    }
    for (; i < n; i++) a[i] = b[i];
    return to;
}
#endif
