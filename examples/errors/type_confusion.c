/* Type confusion: a number that is taken for a pointer to a text. Its bytes are those of an address, without a tag.
   Output: text7. Then `trap tag 12:43`, status 2. Mended: text79. Then `exit 0`. */
struct Value {
    int is_text;
    union {
        const char *text;
        long number;
    } as;
};
static void show(const struct Value *v) {
    if (!v->is_text) putchar('0' + (int)v->as.number);
    else for (const char *s = v->as.text; *s; s++) putchar(*s);
}
int main(void) {
    struct Value v[3];
    v[0].is_text = 1, v[0].as.text = "text";
    v[1].is_text = 0, v[1].as.number = 7;
    v[2].is_text = 1, v[2].as.number = 9;  // mend: v[2].is_text = 0, v[2].as.number = 9;
    for (int i = 0; i < 3; i++) show(&v[i]);
    return 0;
}
