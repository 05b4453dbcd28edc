/* putchar writes the low byte of its argument: of 328 it is 72, of 361 it is 105.
   Output: Hi. Then `exit 0`, status 0. */
int main(void) {
    putchar(328);
    putchar(361);
    return 0;
}
