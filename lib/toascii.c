/* defines: toascii */
/* POSIX. */
int toascii(int c)
{
    return c & 127;
}
