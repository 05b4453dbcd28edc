/* Bounds of 100,000 bytes cannot be told exactly: the object gets 100,096 bytes, and the bounds are those.
   Output: PO. Then `trap bounds 9:6`, status 2. */
int main(void) {
    char *p = malloc(100000);
    p[99999] = 'P';
    putchar(p[99999]);
    p[100095] = 'O';
    putchar(p[100095]);
    p[100096] = 'X';
    return 0;
}
