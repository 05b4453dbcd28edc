/* What C leaves undefined has a value: sums wrap, a quotient by zero is -1, shift counts are taken modulo 32.
   Output: WDRS. Then `exit 0`, status 0. */
int main(void) {
    int most = 2147483647, zero = 0, one = 1;
    if (most + 1 == -2147483647 - 1) putchar('W');
    if (most / zero == -1) putchar('D');
    if (most % zero == most) putchar('R');
    if (one << 33 == 2) putchar('S');
    return 0;
}
