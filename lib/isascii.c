/* defines: isascii */
/* POSIX. */
int isascii(int c)
{
    return c >= 0 && c < 128;
}
