/* A pointer that is made from a plain integer has no tag.
   Output: 7. Then `trap tag 8:19`, status 2. */
int main(void) {
    int x = 7;
    int *p = &x;
    unsigned long number = (unsigned long)p;
    putchar('0' + *p);
    putchar('0' + *(int *)number);
    return 0;
}
