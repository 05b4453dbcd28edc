/* defines: isprint */
/* C11 7.4.1.8. */
int isprint(int c)
{
    return c >= 32 && c < 127;
}
