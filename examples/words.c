/* Counts the words of its input, in order.
   Input: to be or not to be. Output: be 2, not 1, or 1 and to 2, a line each. Then `exit 0`, status 0. */
typedef struct Node Node;
struct Node { Node *next; char *word; int count; };
static Node *table[16];
static int same(const char *a, const char *b) {
  while (*a && *a == *b) { a++; b++; }
  return *a == *b;
}
static int before(const char *a, const char *b) {
  while (*a && *a == *b) { a++; b++; }
  return *a < *b;
}
static unsigned hash(const char *s) {
  unsigned h = 7;
  while (*s) h = h * 31 + *s++;
  return h % 16;
}
static char *copy(const char *s, int n) {
  char *p = malloc(n + 1);
  if (!p) exit(9);
  for (int i = 0; i < n; i++) p[i] = s[i];
  p[n] = 0;
  return p;
}
static void count(const char *s, int n) {
  Node **place = &table[hash(s)];
  while (*place && !same((*place)->word, s)) place = &(*place)->next;
  if (!*place) {
    *place = malloc(sizeof(Node));
    if (!*place) exit(9);
    (*place)->word = copy(s, n);
    (*place)->next = 0;
    (*place)->count = 0;
  }
  (*place)->count++;
}
static Node *insert(Node *list, Node *n, int (*less)(const char *, const char *)) {
  Node **at = &list;
  while (*at && less((*at)->word, n->word)) at = &(*at)->next;
  n->next = *at;
  *at = n;
  return list;
}
static void number(int v) {
  if (v > 9) number(v / 10);
  putchar('0' + v % 10);
}
int main(void) {
  char buf[64];
  int n = 0, c;
  Node *list = 0;
  do {
    c = getchar();
    if (c > ' ' && n < 63) buf[n++] = c;
    else if (n) { buf[n] = 0; count(buf, n); n = 0; }
  } while (c != -1);
  for (int i = 0; i < 16; i++)
    while (table[i]) {
      Node *m = table[i];
      table[i] = m->next;
      list = insert(list, m, before);
    }
  for (; list; list = list->next) {
    for (char *w = list->word; *w; w++) putchar(*w);
    putchar(' ');
    number(list->count);
    putchar('\n');
  }
  return 0;
}
