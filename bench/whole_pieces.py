"""Pieces of programs for whole_programs.py: each one is text at file scope that ends with a function `int pieceK(int
a)`.

In a text T1 to T3 stand for integer types, N1 to N3 for small numbers from 1 to 9, and K for the number of the piece,
so that its names are its own. The number beside it bounds the statements that a call does. `a` may have any value."""

PIECES = [
    (60, """static int oddK(unsigned n);
static int evenK(unsigned n) { return n ? oddK(n - 1) : 1; }
static int oddK(unsigned n) { if (!n) return 0; return evenK(n - 1); }
static int pieceK(int a) {
return evenK(a & 15) * N1 + oddK(a & 7);
}"""),
    (20, """static int upK(int x) { return x + N1; }
static int downK(int x) { return x - N2; }
static int (*pickK(int which))(int) { return which & 1 ? upK : &downK; }
typedef int (*FK)(int);
static int twiceK(FK f, int x) { return f(f(x)); }
static int pieceK(int a) {
FK other = pickK(a >> 1);
if (other == upK) mix(1);
return twiceK(pickK(a), N3) + (*other)(a & 31) + pickK(1)(2);
}"""),
    (120, """typedef T1 RowK[4];
typedef RowK GridK[3];
static GridK gridK = {{1, 2}, {N1, 4, 5}, {6}};
static long sumK(T1 rows[][4], int n) {
long s = 0;
for (int i = 0; i < n; i++) {
const T1 *row = rows[i];
for (int j = 0; j < (int)(sizeof(RowK) / sizeof(T1)); j++) s = s * 3 + row[j];
}
return s;
}
static void fillK(RowK row, int v) { for (int i = 4; i--;) row[i] = v + i; }
static int pieceK(int a) {
RowK own[2] = {{7, N2}};
fillK(gridK[(unsigned)a % 3], a);
fillK(*own + 0, N3);
fillK(own[1], a ^ 3);
return (int)(sumK(gridK, 3) - sumK(own, 2) + sumK(&gridK[1], 2));
}"""),
    (60, """struct OpK { int (*run)(struct OpK *, int); T1 state; struct OpK *next; };
static int addK(struct OpK *op, int x) { op->state += N1; return x + op->state; }
static int xorK(struct OpK *op, int x) { op->state = op->state * 3 + 1; return x ^ op->state; }
static struct OpK lastK = {xorK, N2, 0}, firstK = {addK, 1, &lastK};
static struct OpK *const startK = &firstK;
static int pieceK(int a) {
struct OpK *op, local = {addK, 5, startK};
for (op = &local; op; op = op->next) a = op->run(op, a);
local = firstK;
local.next->state--;
return a + (local.run == addK) + local.next->state;
}"""),
    (400, """struct TreeK { T1 key; struct TreeK *side[2]; };
static void putK(struct TreeK **at, T1 key) {
while (*at) {
if ((*at)->key == key) return;
at = &(*at)->side[key > (*at)->key];
}
*at = malloc(sizeof **at);
if (!*at) exit(5);
(*at)->key = key;
(*at)->side[0] = (*at)->side[1] = 0;
}
static int walkK(const struct TreeK *tree) {
if (!tree) return 0;
int left = walkK(tree->side[0]);
mix(tree->key);
return left + 1 + walkK(tree->side[1]);
}
static int pieceK(int a) {
struct TreeK *root = 0;
for (unsigned i = 0, x = a; i < 10; i++, x = x * 1103515245u + 12345) putK(&root, (T1)(x >> 16));
return walkK(root);
}"""),
    (40, """struct ShapeK { enum { DOTK = -1, LINEK, BOXK = 5 } kind; union { T1 dot; struct { short from, to; } line; T2 box[3]; } u; };
static long sizeK(const struct ShapeK *s) {
switch (s->kind) {
case DOTK:
return s->u.dot;
case LINEK:
return s->u.line.to - s->u.line.from;
case BOXK:
return (long)s->u.box[0] * s->u.box[1] + s->u.box[2];
}
return -1;
}
static int pieceK(int a) {
struct ShapeK shapes[3] = {{DOTK, {N1}}, {LINEK}, {BOXK}};
shapes[1].u.line.from = N2;
shapes[1].u.line.to = a;
shapes[2].u.box[0] = a;
shapes[2].u.box[1] = N3;
shapes[2].u.box[2] = 1;
shapes[0] = shapes[(unsigned)a % 3];
return (int)(sizeK(shapes) + sizeK(shapes + 1) * 3 + sizeK(&shapes[2]));
}"""),
    (60, """static unsigned char bigK[BIG] = {N1, N2};
struct WideK { char c; short many[BIG]; T1 after; };
static struct WideK wideK;
static int pieceK(int a) {
char own[BIG / 8];
own[0] = 3;
own[BIG / 8 - 1] = a;
bigK[BIG - 1] += N3;
wideK.many[BIG - 1] = a;
wideK.after = wideK.many[BIG - 1] + bigK[BIG - 1];
unsigned char *p = bigK + BIG;
p--;
*p ^= 5;
return (int)wideK.after + *p + own[BIG / 8 - 1] + bigK[0] + wideK.c + wideK.many[(unsigned)a % BIG] + own[0];
}"""),
    (200, """static unsigned long lengthK(const char *s) { const char *p = s; while (*p) p++; return p - s; }
static char *copyK(char *to, const char *from) { char *start = to; while ((*to++ = *from++)) ; return start; }
static int compareK(const char *x, const char *y) { for (; *x && *x == *y; x++, y++) ; return *x - *y; }
static void turnK(char *s, int n) { for (int i = 0, j = n - 1; i < j; i++, j--) { char c = s[i]; s[i] = s[j]; s[j] = c; } }
static int pieceK(int a) {
char one[16], two[] = "or\\tnot", *digits = one + 15;
unsigned n = a;
copyK(one, "to be");
turnK(one, lengthK(one));
int sum = compareK(one, two) * N1 + compareK("same", "sa" "me") + sizeof two;
*digits = 0;
do *--digits = "0123456789abcdef"[n & 15]; while ((n >>= 4) && digits > one);
for (; *digits; digits++) mix(*digits);
return sum;
}"""),
    (30, """enum ColourK { REDK = -1, GREENK, BLUEK = REDK + 3, ALLK };
static enum ColourK lastK = GREENK;
static int pieceK(int a) {
int s = 0;
switch ((long)a * 4294967296) {
case 4294967296 * N1:
s++;
case -4294967296:
s += 2;
break;
default:
s = 5;
case 0:
s *= 3;
}
switch ((unsigned char)a) {
case 255: case 254:
s -= 1;
case 'a':
s = -s;
break;
case ALLK + 10:
return s;
}
switch (lastK = (enum ColourK)((unsigned)a % 3)) {
case GREENK: s += 100; break;
case BLUEK: { int s = 3; mix(s); }
case REDK: s++;
}
return s;
}"""),
    (260, """static void multiplyK(T1 (*x)[3], T1 y[3][3], T1 (*to)[3]) {
for (int i = 0; i < 3; i++)
for (int j = 0; j < 3; j++) {
to[i][j] = 0;
for (int k = 0; k < 3; k++) to[i][j] += x[i][k] * *(*(y + k) + j);
}
}
static int pieceK(int a) {
T1 x[3][3] = {{1, N1, 3}, {a, 5}, {7, 8, N2}}, y[3][3] = {{a, a + 1, a - 1}, {1}, {2, N3}}, z[3][3];
multiplyK(x, y, z);
multiplyK(z, x, y);
int s = 0;
for (T1 *p = &y[0][0]; p <= &y[0][2]; ++p) s = s * 31 + (int)*p;
return s + (int)y[2][1];
}"""),
    (500, """static int lessK(const void *x, const void *y) { return *(const T1 *)x < *(const T1 *)y; }
static int moreK(const void *x, const void *y) { return !lessK(x, y) && *(T1 *)x != *(T1 *)y; }
static void sortK(T1 *items, int n, int (*before)(const void *, const void *)) {
for (int i = 1; i < n; i++) {
T1 item = items[i];
int j = i;
for (; j > 0 && before(&item, items + j - 1); j--) items[j] = items[j - 1];
items[j] = item;
}
}
static int pieceK(int a) {
T1 items[8];
for (int i = 0; i < 8; i++) items[i] = (T1)(a * (i + N1) ^ i * N2);
sortK(items, 8, a & 1 ? lessK : moreK);
for (int i = 0; i < 8; i += 3) mix(items[i]);
return (int)items[N3 & 7];
}"""),
    (40, """static int callsK;
static int pieceK(int a) {
static T1 before = N1, *place = &before;
static const char names[2][4] = {"ab", {'c', 'd'}};
extern int globalK;
int x = a, y = x, *p = &y, **q = &p;
{
int x = N2;
y += x;
{ long x = y; *p -= (int)x / 2; }
}
for (int x = 0; x < 3; x++) **q += x;
callsK++;
*place += x;
globalK = globalK * 2 + names[callsK & 1][a & 1];
return (int)before + y + globalK;
}
int globalK = N3;"""),
    (150, """static int pieceK(int a) {
int c, n = 0, s = 0;
while (n < 20 && (c = getchar()) != -1) {
n++;
if (c == '\\n') continue;
if (c == '}') break;
s = s * 7 + c;
}
return s + n + a;
}"""),
    (200, """struct ItemK { const char *key; T1 value; struct ItemK *next; };
static struct ItemK *slotsK[4];
static unsigned hashK(const char *s) { unsigned h = N1; while (*s) h = h * 33 + *s++; return h % 4; }
static T1 *findK(const char *key) {
struct ItemK **at = &slotsK[hashK(key)];
for (; *at; at = &(*at)->next)
if ((*at)->key[0] == key[0] && (*at)->key[1] == key[1]) return &(*at)->value;
struct ItemK *item = malloc(sizeof(struct ItemK));
if (item == 0) exit(7);
item->key = key, item->value = N2, item->next = 0;
*at = item;
return &item->value;
}
static int pieceK(int a) {
static const char *const words[] = {"be", "to", "or", "no", "be"};
for (int i = 0; i < 5; i++) *findK(words[(unsigned)(a + i * N3) % 5]) += i;
++*findK("to");
return (int)(*findK("be") * 5 + *findK("or"));
}"""),
    (200, """static unsigned bitsK(unsigned long x) { unsigned n = 0; for (; x; x &= x - 1) n++; return n; }
static unsigned turnK(unsigned x, int by) { return x << (by & 31) | x >> (-by & 31); }
static int pieceK(int a) {
uint16_t crc = 0xffff;
uint8_t small = a;
int8_t other = a >> 3;
for (int i = 0; i < 8; i++) crc = crc & 1 ? crc >> 1 ^ 0xa001 : crc >> 1, small = small << 1 | small >> 7;
other >>= 1;
other -= 100;
small *= N1;
return bitsK(a) + turnK(a, N2) + crc + ~small + other + (small > other) + (unsigned char)~crc + (_Bool)(a & 64);
}"""),
    (200, """static long greatestK(long x, long y) { while (y) { long r = x % y; x = y; y = r; } return x < 0 ? -x : x; }
static unsigned powerK(unsigned x, unsigned n) { unsigned r = 1; for (; n; n >>= 1, x *= x) if (n & 1) r *= x; return r; }
static int deepK(int m, int n) { return m == 0 ? n + 1 : n == 0 ? deepK(m - 1, 1) : deepK(m - 1, deepK(m, n - 1)); }
static int pieceK(int a) {
return (int)greatestK(a, N1 * 12l) + (int)powerK(a | 1, 13) + deepK(1, a & 7) + (int)greatestK(-48, a % 100 * 6);
}"""),
    (80, """typedef struct { T1 x; struct { T2 y[2]; T3 z; } in; } PointK;
static PointK pointsK[3] = {{1, {{2, 3}, 4}}, {N1}}, *heapK;
static void swapK(PointK *p, PointK *q) { PointK t = *p; *p = *q, *q = t; }
static T3 *insideK(PointK *p) { return &p->in.z; }
static int pieceK(int a) {
PointK own = {a, {{N2}}}, *at = &own;
heapK = malloc(3 * sizeof *heapK);
if (!heapK) exit(8);
heapK[2] = heapK[1] = *at;
swapK(heapK + 1, pointsK);
swapK(&pointsK[1], &pointsK[2]);
*insideK(at) = heapK[1].in.z + 1;
*insideK(&heapK[2]) += N3;
at = heapK + 2;
(--at)->in.y[1] = a;
return (int)(own.in.z + at->in.y[1] * 3 + (*(at + 1)).in.z + pointsK[1].x + (a & 1 ? own : *at).in.y[0]);
}"""),
    (60, """static uintptr_t keptK;
static int tagsK(intptr_t x) { return (int)(x & 7); }
static int pieceK(int a) {
T1 items[6] = {1, 2, N1, 4, 5, N2};
keptK = (uintptr_t)&items[1];
intptr_t number = a, again = number * 3 - N3;
keptK += 2 * sizeof(T1);
T1 *p = (T1 *)keptK;
void *v = p;
number = -number;
again ^= ~number;
again <<= 2;
if (keptK == (uintptr_t)(items + 3)) mix(*p);
if (again > number || !number) mix(7);
return (int)(p - items) + (int)((T1 *)v)[-1] + tagsK(again) + (int)(number / (N1 + 1)) + (int)again;
}"""),
    (60, """static void outK(int *small, T1 *wide, _Bool *flag) { *small = -*small, *wide += *small, *flag = *wide; }
static int manyK(T1 p, T2 q, char r, T3 s, short t, unsigned u, long v, _Bool w) {
return (int)(p + q * 2 - r + s * 3 ^ t * 5 + (int)u - v + w);
}
static int pieceK(int a) {
int x = a;
T1 y = N1;
_Bool z = N2;
outK(&x, &y, &z);
int r = manyK(a, a, a, a, a, a, a, a);
for (;;) {
if (x > N3 * 100) break;
do { if (x & 1) break; x |= 1; continue; } while (0);
x = x < 0 ? 900 : x + 401;
}
return x + (int)y + z + r;
}"""),
]

SIZES = ["4095", "4097", "5000", "8191", "10001"]


def piece(random, ints, number):
    """The text of some piece and its cost."""
    cost, text = random.choice(PIECES)
    for k in (1, 2, 3):
        text = text.replace(f"T{k}", random.choice(ints)).replace(f"N{k}", str(random.randint(1, 9)))
    text = text.replace("BIG", random.choice(SIZES))
    return replaced(text, f"{number}"), cost


def replaced(text, number):
    """K at the end of a name is the number."""
    return "".join(number if c == "K" and text[at - 1:at].isalnum() else c for at, c in enumerate(text))
