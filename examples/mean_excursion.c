/* A pointer may leave its object and come back while it is near. How far a tag lives depends on the
   object's length and place: 1,024 bytes are always too many to be told.
   By `run`: output 1. Then `exit 0`, status 0. By `mean`: output 1. Then `unspecified excursion 8:19`, status 5. */
int main(void) {
    char a[4] = {1, 2, 3, 4};
    char *near = a + 100;
    putchar('0' + *(near - 100));
    char *far = a + 2000;
    return far == a;
}
