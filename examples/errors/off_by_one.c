/* Off by one in a copy: the zero byte behind a text that fills its room.
   Output: nothing. Then `trap bounds 7:7`, status 2. Mended: abcdefg. Then `exit 0`. */
static void copy(char *to, const char *from, int room) {
    int i;
    int last = room;  // mend: int last = room - 1;
    for (i = 0; i < last && from[i]; i++) to[i] = from[i];
    to[i] = 0;
}
int main(void) {
    char name[8];
    copy(name, "abcdefghij", sizeof(name));
    for (int i = 0; name[i]; i++) putchar(name[i]);
    return 0;
}
