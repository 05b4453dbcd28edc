/* A local that nothing wrote has no value that C tells; here a block's variables are 0 when it is entered.
   By `run`: output 10. Then `exit 0`, status 0. By `mean`: output 1. Then `unspecified unwritten 7:24`, status 5. */
int main(void) {
    int known[2], k = 0;
    known[0] = 1;
    putchar('0' + known[0]);
    putchar('0' + known[1]);
    return k;
}
