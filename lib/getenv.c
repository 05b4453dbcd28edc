/* defines: getenv */
/* C11 7.22.4.6: there is no environment. */
char *getenv(const char *s)
{
    (void)s;
    return 0;
}
