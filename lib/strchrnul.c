/* defines: strchrnul */
/* GNU: `strchr` that gives the end where there is none. */
char *strchrnul(const char *s, int c)
{
    while (*s && *s != (char)c) s++;
    return (char *)s;
}
