/* defines: strerror */
/* C11 7.24.6.2. The texts of the numbers that C and common programs name; of others, the number. */
struct __cheric_strerror {
    int number;
    const char *text;
};
static const struct __cheric_strerror __cheric_strerror_texts[] = {
    {0, "Success"}, {1, "Operation not permitted"}, {2, "No such file or directory"}, {5, "Input/output error"},
    {7, "Argument list too long"}, {9, "Bad file descriptor"}, {11, "Resource temporarily unavailable"},
    {12, "Cannot allocate memory"}, {13, "Permission denied"}, {14, "Bad address"}, {16, "Device or resource busy"},
    {17, "File exists"}, {20, "Not a directory"}, {21, "Is a directory"}, {22, "Invalid argument"},
    {27, "File too large"}, {28, "No space left on device"}, {32, "Broken pipe"},
    {33, "Numerical argument out of domain"}, {34, "Numerical result out of range"},
    {36, "File name too long"}, {38, "Function not implemented"}, {74, "Bad message"},
    {75, "Value too large for defined data type"}, {84, "Invalid or incomplete multibyte or wide character"},
    {90, "Message too long"}, {95, "Operation not supported"}, {110, "Connection timed out"},
};

char *strerror(int n)
{
    static char a[32] = "Unknown error ";
    char *end = a + 14;
    unsigned k = n < 0 ? -(unsigned)n : n, ten = 1;
    size_t i;
    for (i = 0; i < sizeof(__cheric_strerror_texts) / sizeof(__cheric_strerror_texts[0]); i++)
        if (__cheric_strerror_texts[i].number == n) return (char *)__cheric_strerror_texts[i].text;
    if (n < 0) *end++ = '-';
    while (k / ten > 9) ten *= 10;
    for (; ten; ten /= 10) *end++ = '0' + k / ten % 10;
    *end = 0;
    return a;
}
