/* defines: strcat */
/* C11 7.24.3.1. */
char *strcat(char *to, const char *s)
{
    char *end = to;
    while (*end) end++;
    while ((*end = *s) != 0) end++, s++;
    return to;
}
