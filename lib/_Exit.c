/* defines: _Exit */
/* C11 7.22.4.5. */
void _Exit(int n)
{
    exit(n);
}
