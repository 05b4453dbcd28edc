/* The input is written again: getchar gives its bytes, and -1 behind the last.
   Output: the input. Then `exit 0`, status 0. */
int main(void) {
    int c = getchar();
    while (c >= 0) {
        putchar(c);
        c = getchar();
    }
    return 0;
}
