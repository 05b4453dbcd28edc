/* The eleventh element of ten.
   Output: ABCDEFGHIJ. Then `trap bounds 6:10`, status 2. */
int main(void) {
    int a[10];
    for (int i = 0; i <= 10; i++) {
        a[i] = i;
        putchar('A' + i);
    }
    return 0;
}
