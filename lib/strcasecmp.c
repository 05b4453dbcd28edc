/* defines: strcasecmp */
/* POSIX: `strcmp` of small letters. */
int strcasecmp(const char *s, const char *t)
{
    int a, b;
    do {
        a = *s++;
        b = *t++;
        if (a >= 'A' && a <= 'Z') a += 'a' - 'A';
        if (b >= 'A' && b <= 'Z') b += 'a' - 'A';
    } while (a && a == b);
    return a - b;
}
