/* defines: ispunct */
/* C11 7.4.1.9. */
int ispunct(int c)
{
    return (c > 32 && c < '0') || (c > '9' && c < 'A') || (c > 'Z' && c < 'a') || (c > 'z' && c < 127);
}
