/* A string literal can be read and not be written.
   Output: a. Then `trap store 6:6`, status 2. */
int main(void) {
    char *s = "ab";
    putchar(s[0]);
    s[1] = 'A';
    return 0;
}
