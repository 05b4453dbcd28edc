/* defines: setlocale */
/* C11 7.11.1.1: the C locale alone. */
char *setlocale(int c, const char *s)
{
    static char c[] = "C";
    (void)c;
    if (s && s[0] && (s[0] != 'C' || s[1])) return 0;
    return c;
}
