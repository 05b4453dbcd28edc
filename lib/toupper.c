/* defines: toupper */
/* C11 7.4.2.2. */
int toupper(int c)
{
    return c >= 'a' && c <= 'z' ? c - 32 : c;
}
