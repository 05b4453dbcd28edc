/* Bounds of 5,000 bytes are exact at some addresses alone: how long they come out depends on the object's place.
   By `run`: output >. Then `exit 0`, status 0. By `mean`: `unspecified rounding 5:31`, status 5. */
int main(void) {
    char *p = malloc(9000);
    char *q = cheri_bounds_set(p + 1, 5000);
    putchar(cheri_length_get(q) > 5000 ? '>' : '=');
    return 0;
}
