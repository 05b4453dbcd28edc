/* An uintptr_t keeps what a pointer may do, also through a sum with an integer; the bytes of a pointer do not.
   Output: 22. Then `trap tag 12:19`, status 2. */
int main(void) {
    int a[3] = {1, 2, 3};
    uintptr_t u = (uintptr_t)a;
    int *p = (int *)(u + sizeof(int));
    int *q;
    putchar('0' + *p);
    *(uintptr_t *)&q = *(uintptr_t *)&p;
    putchar('0' + *q);
    for (int i = 0; i < 16; i++) ((char *)&q)[i] = ((char *)&p)[i];
    putchar('0' + *q);
    return 0;
}
