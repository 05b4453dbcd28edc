/* An int stands at a multiple of four.
   Output: 1. Then `trap align 7:16`, status 2. */
int main(void) {
    int a[2] = {1, 2};
    int *p = (int *)((char *)a + 1);
    putchar('0' + a[0]);
    return 0 + *p;
}
