/* defines: __cheric_ato */
/* The work of `atoi`, `atol` and `atoll` (C11 7.22.1.2): a number out of range is undefined there, and wraps here. */
unsigned long __cheric_ato(const char *s)
{
    unsigned long v = 0;
    int minus;
    while (*s == ' ' || (*s >= '\t' && *s <= '\r')) s++;
    minus = *s == '-';
    if (*s == '-' || *s == '+') s++;
    for (; *s >= '0' && *s <= '9'; s++) v = v * 10 + (*s - '0');
    return minus ? -v : v;
}
