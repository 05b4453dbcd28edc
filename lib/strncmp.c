/* defines: strncmp */
/* C11 7.24.4.4. */
int strncmp(const char *a, const char *b, size_t n)
{
    for (; n && *a && *a == *b; n--) a++, b++;
    return n ? *a - *b : 0;
}
