/* How large a heap is, no program can know: here it has 16,777,216 bytes, and what does not fit gives null.
   By `run`: output YN. Then `exit 0`, status 0. By `mean`: output Y. Then `unspecified heap 6:21`, status 5. */
int main(void) {
    char *p = malloc(16);
    putchar(p ? 'Y' : 'N');
    char *q = malloc(16777216);
    putchar(q ? 'Y' : 'N');
    return 0;
}
