/* A pointer to data cannot be called.
   Output: A. Then `trap execute 11:13`, status 2. */
int one_more(int x) {
    return x + 1;
}
int main(void) {
    int (*f)(int) = one_more;
    int data = 3;
    int (*g)(int) = (int (*)(int))(void *)&data;
    putchar(f(64));
    return g(1);
}
