/* defines: free */
/* C11 7.22.3.3: gives nothing back, so that no pointer ever comes to other memory. */
void free(void *p)
{
    (void)p;
}
