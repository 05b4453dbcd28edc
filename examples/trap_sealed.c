/* A function's pointer is sealed: it can be called, and nothing can be read through it.
   Output: f. Then `trap sealed 10:12`, status 2. */
int f(int c) {
    return putchar(c);
}
int main(void) {
    void *v = (void *)f;
    int *p = v;
    f('f');
    return *p;
}
