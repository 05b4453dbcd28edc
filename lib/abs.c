/* defines: abs */
/* C11 7.22.6.1. */
int abs(int v)
{
    return v < 0 ? -v : v;
}
