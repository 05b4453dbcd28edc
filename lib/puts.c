/* defines: puts */
/* C11 7.21.7.9. */
int puts(const char *s)
{
    while (*s) putchar(*s++);
    putchar('\n');
    return 1;
}
