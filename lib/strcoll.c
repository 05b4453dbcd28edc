/* defines: strcoll */
/* C11 7.24.4.3, in the C locale. */
int strcoll(const char *a, const char *b)
{
    for (; *a && *a == *b; b++) a++;
    return *a - *b;
}
