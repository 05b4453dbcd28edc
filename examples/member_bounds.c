/* A pointer to an array in a struct has the bounds of that member, and does not reach the next one.
   Output: 4. Then `trap bounds 13:6`, status 2. */
struct Pair {
    char name[4];
    int count;
};
int main(void) {
    struct Pair pair = {"abc", 4};
    char *p = pair.name;
    p[3] = 'd';
    putchar('0' + pair.count);
    /* One byte behind the member. */
    p[4] = 9;
    return 0;
}
