/* defines: labs */
/* C11 7.22.6.1. */
long labs(long v)
{
    return v < 0 ? -v : v;
}
