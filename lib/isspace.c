/* defines: isspace */
/* C11 7.4.1.10. */
int isspace(int c)
{
    return c == ' ' || (c >= '\t' && c <= '\r');
}
