/* A pointer may leave its object by less than 1,024 bytes and come back; from farther away its tag is gone.
   Output: A. Then `trap tag 10:6`, status 2. */
int main(void) {
    char a[40];
    char *p = a + 400;
    p = p - 400;
    p[0] = 'A';
    putchar(a[0]);
    p = p + 20000, p = p - 20000;
    p[0] = 'B';
    return 0;
}
