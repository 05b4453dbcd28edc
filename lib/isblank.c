/* defines: isblank */
/* C11 7.4.1.3. */
int isblank(int c)
{
    return c == ' ' || c == '\t';
}
