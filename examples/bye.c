/* The status that a program gives is the low eight bits of what main returns: 300 is 44.
   Output: bye. Then `exit 44`, status 1. */
int main(void) {
    putchar('b');
    putchar('y');
    putchar('e');
    return 300;
}
