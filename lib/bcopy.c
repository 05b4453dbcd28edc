/* defines: bcopy */
/* BSD. */
void *memmove(void *, const void *, size_t);

void bcopy(const void *from, void *to, size_t n)
{
    memmove(to, from, n);
}
