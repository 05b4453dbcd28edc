/* defines: stpcpy */
/* POSIX: `strcpy` that gives the end. */
char *stpcpy(char *to, const char *s)
{
    while ((*to = *s) != 0) to++, s++;
    return to;
}
