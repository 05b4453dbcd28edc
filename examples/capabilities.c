/* What a pointer holds, by the intrinsics of CHERI C: tag, length and offset, and bounds that are set narrower.
   Output: 1, 40, 8 and 4, a line each. Then `trap bounds 16:6`, status 2. */
static void number(unsigned long n) {
    if (n > 9) number(n / 10);
    putchar('0' + (int)(n % 10));
}
static void line(unsigned long n) {
    number(n);
    putchar('\n');
}
int main(void) {
    char a[40];
    char *p = cheri_bounds_set(a + 8, 4);
    line(cheri_tag_get(a)), line(cheri_length_get(a)), line(cheri_offset_get(a + 8)), line(cheri_length_get(p));
    p[3] = 1;
    p[4] = 2;
    return 0;
}
