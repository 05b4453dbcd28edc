/* defines: __cheric_print */
/* The work of `printf` and its kin (C11 7.21.6.1, 7.21.6.5): of a format, the place to write to, its room, and the
   arguments. Without a place and with the room 1 it writes to the output, else a string of at most the room's bytes,
   its zero byte among them. It gives the number of bytes that there would be.

   Which conversions are there is said by macros: __CHERIC_PRINT_d (and i), _u, _o, _x, _X, _c, _s, _p and _n; and
   _wide for flags, widths and precisions. __CHERIC_PRINT_ALL stands for all of them. */
#ifdef __CHERIC_PRINT_ALL
#define __CHERIC_PRINT_d 1
#define __CHERIC_PRINT_u 1
#define __CHERIC_PRINT_o 1
#define __CHERIC_PRINT_x 1
#define __CHERIC_PRINT_X 1
#define __CHERIC_PRINT_c 1
#define __CHERIC_PRINT_s 1
#define __CHERIC_PRINT_p 1
#define __CHERIC_PRINT_n 1
#define __CHERIC_PRINT_wide 1
#endif
#if defined __CHERIC_PRINT_u || defined __CHERIC_PRINT_o || defined __CHERIC_PRINT_x || defined __CHERIC_PRINT_X
#define __CHERIC_PRINT_unsigned 1
#endif
#if defined __CHERIC_PRINT_d || defined __CHERIC_PRINT_unsigned || defined __CHERIC_PRINT_p
#define __CHERIC_PRINT_number 1
#endif
#if defined __CHERIC_PRINT_c || defined __CHERIC_PRINT_s || defined __CHERIC_PRINT_p
#define __CHERIC_PRINT_bytes 1
#endif

/* The rest of the format, the arguments not yet taken, and the bytes so far. */
static const char *__cheric_print_at;
static const uintptr_t *__cheric_print_from;
static char *__cheric_print_to;
static size_t __cheric_print_room, __cheric_print_count;

static void __cheric_print_byte(int c)
{
    if (__cheric_print_room == 1 && !__cheric_print_to) putchar(c);
    else if (__cheric_print_count + 1 < __cheric_print_room) __cheric_print_to[__cheric_print_count] = c;
    __cheric_print_count++;
}

#ifdef __CHERIC_PRINT_wide
/* The flags, the width, and the precision, which is negative where there is none. */
static int __cheric_print_left, __cheric_print_zero, __cheric_print_alternative;
static const char *__cheric_print_sign;
static int __cheric_print_width, __cheric_print_precision;

static void __cheric_print_many(int c, int n)
{
    for (; n > 0; n--) __cheric_print_byte(c);
}

/* The number of a width or a precision. */
static int __cheric_print_measure(void)
{
    int n = 0;
    if (*__cheric_print_at == '*') {
        __cheric_print_at++;
        return (int)*__cheric_print_from++;
    }
    for (; *__cheric_print_at >= '0' && *__cheric_print_at <= '9'; __cheric_print_at++)
        n = n * 10 + (*__cheric_print_at - '0');
    return n;
}

static void __cheric_print_flags(void)
{
    int c, more = 1;
    __cheric_print_left = __cheric_print_zero = __cheric_print_alternative = 0;
    __cheric_print_sign = "";
    while (more) {
        c = *__cheric_print_at;
        if (c == '-') __cheric_print_left = 1;
        else if (c == '0') __cheric_print_zero = 1;
        else if (c == '#') __cheric_print_alternative = 1;
        else if (c == '+') __cheric_print_sign = "+";
        else if (c != ' ') more = 0;
        else if (!*__cheric_print_sign) __cheric_print_sign = " ";
        __cheric_print_at += more;
    }
    __cheric_print_width = __cheric_print_measure();
    if (__cheric_print_width < 0) {
        __cheric_print_left = 1;
        __cheric_print_width = -__cheric_print_width;
    }
    __cheric_print_precision = -1;
    if (*__cheric_print_at == '.') {
        __cheric_print_at++;
        __cheric_print_precision = __cheric_print_measure();
    }
}
#endif

#ifdef __CHERIC_PRINT_bytes
static void __cheric_print_bytes(const char *s, int n)
{
    int i;
#ifdef __CHERIC_PRINT_wide
    if (!__cheric_print_left) __cheric_print_many(' ', __cheric_print_width - n);
#endif
    for (i = 0; i < n; i++) __cheric_print_byte(s[i]);
#ifdef __CHERIC_PRINT_wide
    if (__cheric_print_left) __cheric_print_many(' ', __cheric_print_width - n);
#endif
}
#endif

#ifdef __CHERIC_PRINT_s
/* A precision is the most bytes that are looked at. */
static void __cheric_print_string(const char *s)
{
    int n = 0;
    if (!s) s = "(null)";
#ifdef __CHERIC_PRINT_wide
    while (n != __cheric_print_precision && s[n]) n++;
#else
    while (s[n]) n++;
#endif
    __cheric_print_bytes(s, n);
}
#endif

#ifdef __CHERIC_PRINT_number
static void __cheric_print_digits(const char *before, unsigned long v, unsigned base, const char *of)
{
    char d[24];
    int n = 0;
#ifdef __CHERIC_PRINT_wide
    int zeros, i;
#endif
    for (; v; v /= base) d[n++] = of[v % base];
#ifdef __CHERIC_PRINT_wide
    zeros = __cheric_print_precision < 0 ? !n : __cheric_print_precision - n;
    if (zeros <= 0 && base == 8 && __cheric_print_alternative) zeros = 1;
    for (i = 0; before[i]; i++) __cheric_print_width--;
    if (__cheric_print_precision < 0 && __cheric_print_zero && !__cheric_print_left
        && zeros < __cheric_print_width - n)
        zeros = __cheric_print_width - n;
    if (zeros < 0) zeros = 0;
    if (!__cheric_print_left) __cheric_print_many(' ', __cheric_print_width - n - zeros);
    while (*before) __cheric_print_byte(*before++);
    __cheric_print_many('0', zeros);
    i = __cheric_print_width - n - zeros;
    while (n) __cheric_print_byte(d[--n]);
    if (__cheric_print_left) __cheric_print_many(' ', i);
#else
    if (!n) d[n++] = '0';
    while (*before) __cheric_print_byte(*before++);
    while (n) __cheric_print_byte(d[--n]);
#endif
}

/* The low bytes of an integer, as many as `size`. */
static unsigned long __cheric_print_kept(unsigned long v, int each)
{
    return v << (64 - 8 * each) >> (64 - 8 * each);
}
#endif

#ifdef __CHERIC_PRINT_d
static void __cheric_print_signed(unsigned long v, int each)
{
#ifdef __CHERIC_PRINT_wide
    const char *before = __cheric_print_sign;
#else
    const char *before = "";
#endif
    if (v >> (8 * each - 1) & 1) {
        before = "-";
        v = -v;
    }
    __cheric_print_digits(before, __cheric_print_kept(v, each), 10, "0123456789");
}
#endif

#ifdef __CHERIC_PRINT_unsigned
static void __cheric_print_unsigned(unsigned long v, int c)
{
    const char *of = c == 'X' ? "0123456789ABCDEF" : "0123456789abcdef";
    unsigned base = c == 'u' ? 10 : c == 'o' ? 8 : 16;
    const char *before = "";
#ifdef __CHERIC_PRINT_wide
    if (__cheric_print_alternative && v && base == 16) before = c == 'X' ? "0X" : "0x";
#endif
    __cheric_print_digits(before, v, base, of);
}
#endif

#ifdef __CHERIC_PRINT_p
/* The address; with `#` the permissions, the base and the top behind it. Null alone is (nil), as with glibc. */
static void __cheric_print_pointer(uintptr_t p)
{
    const char *of = "0123456789abcdef";
#ifdef __CHERIC_PRINT_wide
    const char *s = "\2r\3w\1x\4R\5W";
    int more = __cheric_print_alternative;
    if (!p && !more) __cheric_print_bytes("(nil)", 5);
    else __cheric_print_digits("0x", (unsigned long)p, 16, of);
    if (!more) return;
    __cheric_print_width = 0;
    __cheric_print_precision = -1;
    __cheric_print_bytes(" [", 2);
    for (; *s; s += 2) if (cheri_perms_get(p) >> s[0] & 1) __cheric_print_byte(s[1]);
    __cheric_print_digits(",0x", cheri_base_get(p), 16, of);
    __cheric_print_width = 0;
    __cheric_print_digits("-0x", cheri_base_get(p) + cheri_length_get(p), 16, of);
    __cheric_print_byte(']');
    __cheric_print_width = 0;
    if (!cheri_tag_get(p)) __cheric_print_bytes(" (invalid)", 10);
#else
    if (!p) __cheric_print_bytes("(nil)", 5);
    else __cheric_print_digits("0x", (unsigned long)p, 16, of);
#endif
}
#endif

#ifdef __CHERIC_PRINT_n
static void __cheric_print_number(uintptr_t to, int each)
{
    if (each == 8) *(long *)to = __cheric_print_count;
    else if (each == 4) *(int *)to = __cheric_print_count;
    else if (each == 2) *(short *)to = __cheric_print_count;
    else *(signed char *)to = __cheric_print_count;
}
#endif

/* One conversion, from behind its `%` to its last byte. */
static void __cheric_print_conversion(void)
{
    int each = 4, c;
#ifdef __CHERIC_PRINT_c
    char one;
#endif
#ifdef __CHERIC_PRINT_wide
    __cheric_print_flags();
#endif
    for (;; __cheric_print_at++) {
        c = *__cheric_print_at;
        if (c == 'h') each /= 2;
        else if (c == 'l' || c == 'j' || c == 'z' || c == 't') each = 8;
        else break;
    }
    if (c == 0) return;
#ifdef __CHERIC_PRINT_d
    if (c == 'd' || c == 'i') __cheric_print_signed((unsigned long)*__cheric_print_from++, each);
    else
#endif
#ifdef __CHERIC_PRINT_unsigned
    if (c == 'u' || c == 'x' || c == 'X' || c == 'o')
        __cheric_print_unsigned(__cheric_print_kept((unsigned long)*__cheric_print_from++, each), c);
    else
#endif
#ifdef __CHERIC_PRINT_s
    if (c == 's') __cheric_print_string((const char *)*__cheric_print_from++);
    else
#endif
#ifdef __CHERIC_PRINT_c
    if (c == 'c') {
        one = (char)*__cheric_print_from++;
        __cheric_print_bytes(&one, 1);
    } else
#endif
#ifdef __CHERIC_PRINT_p
    if (c == 'p') __cheric_print_pointer(*__cheric_print_from++);
    else
#endif
#ifdef __CHERIC_PRINT_n
    if (c == 'n') __cheric_print_number(*__cheric_print_from++, each);
    else
#endif
    {
        /* `%%`; and what is no conversion is written as it stands. */
        if (c != '%') __cheric_print_byte('%');
        __cheric_print_byte(c);
    }
}

int __cheric_print(const char *s, char *to, size_t most, const uintptr_t *from)
{
    __cheric_print_at = s;
    __cheric_print_from = from;
    __cheric_print_to = to;
    __cheric_print_room = most;
    __cheric_print_count = 0;
    for (; *__cheric_print_at; __cheric_print_at++) {
        if (*__cheric_print_at != '%') __cheric_print_byte(*__cheric_print_at);
        else {
            __cheric_print_at++;
            __cheric_print_conversion();
            if (!*__cheric_print_at) break;
        }
    }
    if (to && most) to[__cheric_print_count < most ? __cheric_print_count : most - 1] = 0;
    return (int)__cheric_print_count;
}
