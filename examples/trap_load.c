/* A pointer without the permission to load (bit 2) can only be written through.
   Output: w. Then `trap load 8:14`, status 2. */
int main(void) {
    char a[4] = "abc";
    char *p = cheri_perms_and(a, ~4ul);
    p[0] = 'w';
    putchar(a[0]);
    putchar(p[1]);
    return 0;
}
