/* A pointer kept in an integer: `unsigned long` holds the address, and not the right to use it.
   Output: nothing. Then `trap tag 7:13`, status 2. Mended: x. Then `exit 0`. */
typedef unsigned long Word;  // mend: typedef uintptr_t Word;
static Word slots[4];
static void show(int i) {
    char *p = (char *)slots[i];
    putchar(*p);
}
int main(void) {
    char letter = 'x';
    slots[2] = (Word)&letter;
    show(2);
    return 0;
}
