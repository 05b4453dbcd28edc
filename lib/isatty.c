/* defines: isatty */
/* POSIX: nothing is a terminal. */
int isatty(int d)
{
    (void)d;
    return 0;
}
