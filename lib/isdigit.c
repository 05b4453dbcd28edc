/* defines: isdigit */
/* C11 7.4.1.5. */
int isdigit(int c)
{
    return c >= '0' && c <= '9';
}
