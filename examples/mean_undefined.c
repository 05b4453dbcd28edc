/* A sum of ints that is larger than INT_MAX has no meaning in C; here it wraps.
   By `run`: output 3N. Then `exit 0`, status 0. By `mean`: output 3. Then `unspecified undefined 9:14`, status 5. */
static int add(int a, int b) {
    return a + b;
}
int main(void) {
    int most = 2147483647;
    putchar('0' + add(1, 2));
    if (most + 1 < 0) putchar('N');
    return 0;
}
