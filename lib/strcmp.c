/* defines: strcmp */
/* C11 7.24.4.2. */
int strcmp(const char *a, const char *b)
{
    for (; *a && *a == *b; b++) a++;
    return *a - *b;
}
