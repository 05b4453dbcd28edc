/* A local of a function that has returned is no more. What a pointer to it reads is told by no meaning.
   By `mean`: output 7. Then `outside 9:19`, status 5. */
static int *local(void) {
    int x = 7;
    return &x;
}
int main(void) {
    putchar('7');
    putchar('0' + *local());
    return 0;
}
