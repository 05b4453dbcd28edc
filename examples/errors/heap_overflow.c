/* Heap overflow: an allocation without room for the zero byte. Elsewhere that byte belongs to what malloc gives next.
   Output: nothing. Then `trap bounds 8:36`, status 2. Mended: copied. Then `exit 0`. */
static char *copy(const char *s) {
    int n = 0;
    while (s[n]) n++;
    char *to = malloc(n);  // mend: char *to = malloc(n + 1);
    if (!to) exit(9);
    for (int i = 0; i <= n; i++) to[i] = s[i];
    return to;
}
int main(void) {
    for (char *s = copy("copied"); *s; s++) putchar(*s);
    return 0;
}
