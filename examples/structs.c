/* Structs in structs, arrays of them and their assignment: a copy keeps the pointers in it.
   Output: 8, 2 and 5, a line each. Then `exit 0`, status 0. */
struct Point {
    int x, y;
};
struct Shape {
    struct Point corners[3];
    int *weight;
    const char *name;
};
int main(void) {
    int weight = 8;
    struct Shape one = {{{1, 2}, {3, 4}, {5, 6}}, &weight, "one"}, several[2];
    several[0] = several[1] = one;
    one.corners[0].y = 9;
    putchar('0' + *several[1].weight), putchar('\n');
    putchar('0' + several[0].corners[0].y), putchar('\n');
    putchar('0' + (weight > 7 ? several[0] : one).corners[2].x), putchar('\n');
    return 0;
}
