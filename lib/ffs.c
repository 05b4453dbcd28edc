/* defines: ffs */
/* POSIX: the number of the lowest bit, counted from 1, or 0. */
int ffs(int v)
{
    int n;
    for (n = 0; n < 32; n++) if ((unsigned)v >> n & 1) return n + 1;
    return 0;
}
