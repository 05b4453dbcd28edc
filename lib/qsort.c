/* defines: qsort */
/* C11 7.22.5.2: a merge sort, so that equal elements keep their order. Its second room is kept for the next call.
   Where there is none, it inserts each element into those before it. An element whose size is a multiple of 16 is
   moved by granules, with its tags, where it is aligned so; the strict meaning takes it to be. */
struct __cheric_qsort_granule {
    uintptr_t granule;
};
struct __cheric_qsort_byte {
    unsigned char byte;
};
static char *__cheric_qsort_room;
static size_t __cheric_qsort_length;

static void __cheric_qsort_move(char *to, const char *from, size_t n, int wide)
{
    size_t i;
    if (wide)
        for (i = 0; i < n; i += 16)
            *(struct __cheric_qsort_granule *)(to + i) = *(const struct __cheric_qsort_granule *)(from + i);
    else
        for (i = 0; i < n; i++)
            *(struct __cheric_qsort_byte *)(to + i) = *(const struct __cheric_qsort_byte *)(from + i);
}

/* Merges a run of `left` bytes and one of `right` bytes behind it, through a room for the left one. */
static void __cheric_qsort_merge(char *a, size_t left, size_t right, size_t each, int wide, char *beside,
    int (*compare)(const void *, const void *))
{
    size_t i = 0, j = left, at = 0;
    __cheric_qsort_move(beside, a, left, wide);
    while (i < left) {
        if (j < left + right && compare(beside + i, a + j) > 0) {
            __cheric_qsort_move(a + at, a + j, each, wide);
            j += each;
        } else {
            __cheric_qsort_move(a + at, beside + i, each, wide);
            i += each;
        }
        at += each;
    }
}

/* Without a room elements change places, each with the one before it. */
static void __cheric_qsort_insert(char *a, size_t all, size_t each, int wide,
    int (*compare)(const void *, const void *))
{
    size_t i, j, k;
    uintptr_t g;
    char c, *p, *q;
    for (i = each; i < all; i += each)
        for (j = i; j && compare(a + j - each, a + j) > 0; j -= each)
            for (k = 0; k < each; k += wide ? 16 : 1) {
                p = a + j - each + k;
                q = a + j + k;
                if (wide) {
                    g = *(uintptr_t *)p;
                    *(uintptr_t *)p = *(uintptr_t *)q;
                    *(uintptr_t *)q = g;
                } else {
                    c = *p;
                    *p = *q;
                    *q = c;
                }
            }
}

void qsort(void *from, size_t n, size_t each, int (*compare)(const void *, const void *))
{
    char *a = from, *beside = __cheric_qsort_room;
    size_t all = n * each, most = __cheric_qsort_length, r, i, right;
#ifdef __CHERIC_MEAN__
    int wide = each % 16 == 0;
#else
    int wide = (each | (ptraddr_t)a) % 16 == 0;
#endif
    if (n < 2) return;
    /* The comparison may sort as well. */
    __cheric_qsort_room = 0;
    if (!beside || most < all) {
        most = all;
        beside = malloc(most);
    }
    if (!beside) {
        __cheric_qsort_insert(a, all, each, wide, compare);
        return;
    }
    for (r = each; r < all; r *= 2)
        for (i = 0; i + r < all; i += 2 * r) {
            right = all - i - r < r ? all - i - r : r;
            __cheric_qsort_merge(a + i, r, right, each, wide, beside, compare);
        }
    __cheric_qsort_room = beside;
    __cheric_qsort_length = most;
}
