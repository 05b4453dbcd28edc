/* defines: isgraph */
/* C11 7.4.1.6. */
int isgraph(int c)
{
    return c > 32 && c < 127;
}
