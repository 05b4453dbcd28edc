/* Stack buffer overflow: a line of the input that is longer than its buffer. Elsewhere it reaches the return address.
   Input: more than eight. Output: nothing. Then `trap bounds 7:15`, status 2. Mended: more th. Then `exit 0`. */
static void line(void) {
    char buffer[8];
    int n = 0;
    for (int c = getchar(); c > '\n'; c = getchar())
        buffer[n++] = c;  // mend: if (n < 7) buffer[n++] = c;
    buffer[n] = 0;
    for (n = 0; buffer[n]; n++) putchar(buffer[n]);
}
int main(void) {
    line();
    return 0;
}
