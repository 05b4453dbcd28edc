/* defines: strcpy */
/* C11 7.24.2.3. */
char *strcpy(char *to, const char *s)
{
    size_t i = 0;
    while ((to[i] = s[i]) != 0) i++;
    return to;
}
