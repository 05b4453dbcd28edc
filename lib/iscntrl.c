/* defines: iscntrl */
/* C11 7.4.1.4. */
int iscntrl(int c)
{
    return (c >= 0 && c < 32) || c == 127;
}
