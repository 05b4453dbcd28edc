/* A struct is not to be copied over a part of itself: here it goes unit by unit from the front.
   By `run`: output 1. Then `exit 0`, status 0. By `mean`: output 1. Then `unspecified overlap 9:10`, status 5. */
struct S {
    int a[4];
} s[2] = {{{1, 2, 3, 4}}};
int main(void) {
    struct S *p = (struct S *)((int *)s + 1);
    putchar('0' + s[0].a[0]);
    s[0] = *p;
    return 0;
}
