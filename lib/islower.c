/* defines: islower */
/* C11 7.4.1.7. */
int islower(int c)
{
    return c >= 'a' && c <= 'z';
}
