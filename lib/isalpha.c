/* defines: isalpha */
/* C11 7.4.1.2. */
int isalpha(int c)
{
    return (c >= 'A' && c <= 'Z') || (c >= 'a' && c <= 'z');
}
