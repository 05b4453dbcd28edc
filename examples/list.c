/* A list from malloc, in order: its input is a line of small letters.
   Input: sorted. Output: deorst. Then `exit 6`, status 1: the number of letters. */
typedef struct Node Node;
struct Node {
    Node *next;
    char letter;
};
static Node *insert(Node *list, char letter) {
    Node **at = &list;
    Node *node = malloc(sizeof(Node));
    if (!node) exit(99);
    while (*at && (*at)->letter < letter) at = &(*at)->next;
    node->letter = letter;
    node->next = *at;
    *at = node;
    return list;
}
int main(void) {
    Node *list = 0;
    int c, count = 0;
    while ((c = getchar()) >= 'a') {
        list = insert(list, c);
        count++;
    }
    for (; list; list = list->next) putchar(list->letter);
    return count;
}
