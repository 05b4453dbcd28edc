/* A pointer that is null: a search that finds nothing, and a caller that does not ask.
   Output: 2. Then `trap tag 13:23`, status 2. Mended: 2?. Then `exit 0`. */
struct Word {
    struct Word *next;
    char letter;
    char count;
};
static struct Word *find(struct Word *list, char letter) {
    while (list && list->letter != letter) list = list->next;
    return list;
}
static void show(struct Word *word) {
    putchar('0' + word->count);  // mend: putchar(word ? '0' + word->count : '?');
}
int main(void) {
    struct Word b = {0, 'b', 2}, t = {&b, 't', 2};
    show(find(&t, 'b'));
    show(find(&t, 'o'));
    return 0;
}
