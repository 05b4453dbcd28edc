/* defines: isupper */
/* C11 7.4.1.11. */
int isupper(int c)
{
    return c >= 'A' && c <= 'Z';
}
