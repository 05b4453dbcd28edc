/* The heap has 16,777,216 bytes, which are never used again. What does not fit is answered by null.
   Output: YN. Then `exit 0`, status 0. */
int main(void) {
    char *p = malloc(16777216);
    char *q = malloc(1);
    putchar(p ? 'Y' : 'N');
    putchar(q ? 'Y' : 'N');
    return 0;
}
