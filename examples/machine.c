/* A little stack machine: it pushes, adds, multiplies, shows and jumps. It shows the squares from 1 to 9.
   Output: 1, 4, 9, 16, 25, 36, 49, 64 and 81, a line each. Then `exit 9`, status 1. */
enum Opcode { PUSH, DUPLICATE, ADD, MULTIPLY, SHOW, LOAD, STORE, JUMP_BELOW, HALT };
struct Machine {
    int stack[8];
    int depth;
    int memory[4];
};
static const int program[] = {
    LOAD, 0, PUSH, 1, ADD, STORE, 0,
    LOAD, 0, DUPLICATE, MULTIPLY, SHOW,
    LOAD, 0, PUSH, 9, JUMP_BELOW, 0,
    LOAD, 0, HALT,
};
static void number(int n) {
    if (n > 9) number(n / 10);
    putchar('0' + n % 10);
}
static int pop(struct Machine *m) {
    return m->stack[--m->depth];
}
static void push(struct Machine *m, int value) {
    m->stack[m->depth++] = value;
}
static int run(struct Machine *m, const int *code) {
    const int *at = code;
    for (;;) {
        int a, b;
        switch (*at++) {
        case PUSH: push(m, *at++); break;
        case DUPLICATE: a = pop(m); push(m, a), push(m, a); break;
        case ADD: b = pop(m), a = pop(m); push(m, a + b); break;
        case MULTIPLY: b = pop(m), a = pop(m); push(m, a * b); break;
        case SHOW: number(pop(m)), putchar('\n'); break;
        case LOAD: push(m, m->memory[*at++]); break;
        case STORE: m->memory[*at++] = pop(m); break;
        case JUMP_BELOW: b = pop(m), a = pop(m); at = a < b ? code + *at : at + 1; break;
        case HALT: return pop(m);
        }
    }
}
int main(void) {
    struct Machine m = {{0}, 0, {0}};
    return run(&m, program);
}
