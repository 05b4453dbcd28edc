/* defines: strtok */
/* C11 7.24.5.8. */
char *strtok_r(char *, const char *, char **);

char *strtok(char *s, const char *t)
{
    static char *after;
    return strtok_r(s, t, &after);
}
