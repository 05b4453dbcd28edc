/* defines: imaxabs */
/* C11 7.8.2.1. */
long imaxabs(long v)
{
    return v < 0 ? -v : v;
}
