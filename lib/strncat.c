/* defines: strncat */
/* C11 7.24.3.2. */
char *strncat(char *to, const char *s, size_t n)
{
    char *end = to;
    while (*end) end++;
    for (; n && *s; n--) *end++ = *s++;
    *end = 0;
    return to;
}
