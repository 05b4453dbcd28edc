/* defines: abort */
/* C11 7.22.4.1: the status that a shell shows of SIGABRT. */
void abort(void)
{
    exit(134);
}
