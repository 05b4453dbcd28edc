/* A table of functions, and a function that takes one.
   Output: 7, 3, 10 and 2, a line each. Then `exit 0`, status 0. */
typedef int Operation(int, int);
static int add(int a, int b) { return a + b; }
static int subtract(int a, int b) { return a - b; }
static int multiply(int a, int b) { return a * b; }
static int divide(int a, int b) { return a / b; }
static Operation *const table[] = {add, subtract, multiply, divide};
static void number(int n) {
    if (n > 9) number(n / 10);
    putchar('0' + n % 10);
}
static void show(Operation *f, int a, int b) {
    number(f(a, b));
    putchar('\n');
}
int main(void) {
    for (int i = 0; i < 4; i++) show(table[i], 5, 2);
    return 0;
}
