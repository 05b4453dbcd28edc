/* defines: strlen */
/* C11 7.24.6.3. */
size_t strlen(const char *s)
{
    size_t n = 0;
    while (s[n]) n++;
    return n;
}
