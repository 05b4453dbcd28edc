/* defines: time */
/* C11 7.27.2.4: there is no calendar time. */
long time(long *to)
{
    if (to) *to = -1;
    return -1;
}
