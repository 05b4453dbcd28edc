/* defines: clock */
/* C11 7.27.2.1: there is no processor time. */
long clock(void)
{
    return -1;
}
