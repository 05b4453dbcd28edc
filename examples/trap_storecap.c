/* A pointer without the permission to store capabilities (bit 5) takes integers and no pointers.
   Output: i. Then `trap storecap 10:5`, status 2. */
int main(void) {
    int x = 3;
    int *q = 0;
    int **p = cheri_perms_and(&q, ~32ul);
    *p = 0;
    *(int *)p = 5;
    putchar('i');
    *p = &x;
    return 0;
}
