/* defines: llabs */
/* C11 7.22.6.1. */
long long llabs(long long v)
{
    return v < 0 ? -v : v;
}
