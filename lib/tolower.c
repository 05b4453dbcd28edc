/* defines: tolower */
/* C11 7.4.2.1. */
int tolower(int c)
{
    return c >= 'A' && c <= 'Z' ? c + 32 : c;
}
