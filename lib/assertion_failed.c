/* defines: __cheric_assertion_failed */
/* C11 7.2.1.1: the text goes to the one output, and the run ends as `abort` ends it. */
static void __cheric_assertion_text(const char *s)
{
    while (*s) putchar(*s++);
}

void __cheric_assertion_failed(const char *c, const char *s, int n)
{
    int ten = 1;
    __cheric_assertion_text(s);
    putchar(':');
    while (n / ten > 9) ten *= 10;
    for (; ten; ten /= 10) putchar('0' + n / ten % 10);
    __cheric_assertion_text(": assertion failed: ");
    __cheric_assertion_text(c);
    putchar('\n');
    exit(134);
}
