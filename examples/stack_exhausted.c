/* A recursion that does not end uses up the stack of 1,048,576 bytes.
   Output: a dot for each 16,384 calls. Then `stack 4:12`, the name of the function, status 3. */
static int calls;
static int deeper(int n) {
    calls++;
    if (calls % 16384 == 0) putchar('.');
    return deeper(n + 1) + 1;
}
int main(void) {
    return deeper(0);
}
