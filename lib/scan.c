/* defines: __cheric_scan */
/* The work of `scanf` and its kin (C11 7.21.6.2): of a format, the stream or the string that is read, and the
   pointers. It gives the number of what was stored, or -1 where the input ended before.

   Which conversions are there is said by macros: __CHERIC_SCAN_d, _i, _u, _o, _x, _X, _c, _s, _set and _n.
   __CHERIC_SCAN_ALL stands for all of them. */
#include <stdio.h>

#ifdef __CHERIC_SCAN_ALL
#define __CHERIC_SCAN_d 1
#define __CHERIC_SCAN_c 1
#define __CHERIC_SCAN_s 1
#define __CHERIC_SCAN_set 1
#define __CHERIC_SCAN_n 1
#endif
#if defined __CHERIC_SCAN_d || defined __CHERIC_SCAN_i || defined __CHERIC_SCAN_u || defined __CHERIC_SCAN_o
#define __CHERIC_SCAN_number 1
#elif defined __CHERIC_SCAN_x || defined __CHERIC_SCAN_X
#define __CHERIC_SCAN_number 1
#endif

/* The rest of the format, what is read, the byte that was looked at and not taken, the bytes taken, and those that the
   conversion may take yet; and the pointers that are left. */
static const char *__cheric_scan_at, *__cheric_scan_string;
static FILE *__cheric_scan_stream;
static const uintptr_t *__cheric_scan_to;
static int __cheric_scan_seen, __cheric_scan_byte, __cheric_scan_taken, __cheric_scan_width;

static int __cheric_scan_next(void)
{
    if (!__cheric_scan_seen) {
        if (__cheric_scan_stream) __cheric_scan_byte = fgetc(__cheric_scan_stream);
        else __cheric_scan_byte = *__cheric_scan_string ? *__cheric_scan_string++ : -1;
        __cheric_scan_seen = 1;
    }
    return __cheric_scan_byte;
}

static void __cheric_scan_take(void)
{
    __cheric_scan_seen = 0;
    __cheric_scan_taken++;
    __cheric_scan_width--;
}

static int __cheric_scan_is_space(int c)
{
    return c == ' ' || (c >= '\t' && c <= '\r');
}

static void __cheric_scan_spaces(void)
{
    while (__cheric_scan_is_space(__cheric_scan_next())) __cheric_scan_take();
}

static void __cheric_scan_store(unsigned long v, int each)
{
    uintptr_t to = *__cheric_scan_to++;
    if (each == 8) *(unsigned long *)to = v;
    else if (each == 4) *(unsigned *)to = v;
    else if (each == 2) *(unsigned short *)to = v;
    else *(unsigned char *)to = v;
}

#ifdef __CHERIC_SCAN_number
/* A number to the base, or of its own base where that is 0. Whether there was one. */
static int __cheric_scan_number(int b, unsigned long *to)
{
    unsigned long v = 0;
    unsigned d;
    int minus = __cheric_scan_next() == '-', any = 0;
    if (minus || __cheric_scan_next() == '+') __cheric_scan_take();
    if ((b == 0 || b == 16) && __cheric_scan_width > 0 && __cheric_scan_next() == '0') {
        __cheric_scan_take();
        any = 1;
        if (__cheric_scan_width > 0 && (__cheric_scan_next() == 'x' || __cheric_scan_next() == 'X')) {
            __cheric_scan_take();
            any = 0;
            b = 16;
        } else if (b == 0) b = 8;
    }
    if (b == 0) b = 10;
    while (__cheric_scan_width > 0) {
        d = __cheric_scan_next();
        if (d >= '0' && d <= '9') d -= '0';
        else if (d >= 'A' && d <= 'F') d -= 'A' - 10;
        else if (d >= 'a' && d <= 'f') d -= 'a' - 10;
        else break;
        if (d >= (unsigned)b) break;
        v = v * b + d;
        any = 1;
        __cheric_scan_take();
    }
    *to = minus ? -v : v;
    return any;
}
#endif

#ifdef __CHERIC_SCAN_set
/* Reads the set behind its `[`: which bytes belong to it. */
static void __cheric_scan_set(char *of)
{
    int c, out = *__cheric_scan_at == '^', last = -1;
    if (out) __cheric_scan_at++;
    for (c = 0; c < 256; c++) of[c] = out;
    for (;; __cheric_scan_at++) {
        c = *__cheric_scan_at;
        if (!c || (c == ']' && last >= 0)) return;
        if (c == '-' && last >= 0 && __cheric_scan_at[1] && __cheric_scan_at[1] != ']') {
            c = *++__cheric_scan_at;
            for (; last <= c; last++) of[last] = !out;
        }
        of[c] = !out;
        last = c;
    }
}
#endif

#if defined __CHERIC_SCAN_s || defined __CHERIC_SCAN_set || defined __CHERIC_SCAN_c
/* The bytes that belong to the set, of those that are no space without one; `c` takes any. Whether there was one. */
static int __cheric_scan_bytes(int c, const char *of, char *to)
{
    int any = 0;
    while (__cheric_scan_width > 0 && __cheric_scan_next() >= 0) {
        if (c == 's' && __cheric_scan_is_space(__cheric_scan_next())) break;
        if (c == '[' && !of[__cheric_scan_next()]) break;
        if (to) *to++ = __cheric_scan_next();
        __cheric_scan_take();
        any = 1;
    }
    if (to && any && c != 'c') *to = 0;
    return any;
}
#endif

/* One conversion, from behind its `%`: 1 where it stored, 0 where it didn't and may go on, -1 where the input does not
   fit, -2 where it ended. */
static int __cheric_scan_conversion(void)
{
    int each = 4, c, only = *__cheric_scan_at == '*', any = 0, most = 0;
#ifdef __CHERIC_SCAN_number
    unsigned long v = 0;
#endif
#ifdef __CHERIC_SCAN_set
    char of[256];
#else
    const char *of = 0;
#endif
    if (only) __cheric_scan_at++;
    for (; *__cheric_scan_at >= '0' && *__cheric_scan_at <= '9'; __cheric_scan_at++)
        most = most * 10 + (*__cheric_scan_at - '0');
    for (;; __cheric_scan_at++) {
        c = *__cheric_scan_at;
        if (c == 'h') each /= 2;
        else if (c == 'l' || c == 'j' || c == 'z' || c == 't') each = 8;
        else break;
    }
    if (c == 0) return -1;
    __cheric_scan_at++;
#ifdef __CHERIC_SCAN_n
    if (c == 'n') {
        if (!only) __cheric_scan_store(__cheric_scan_taken, each);
        return 0;
    }
#endif
    if (c != 'c' && c != '[') __cheric_scan_spaces();
    __cheric_scan_width = most ? most : c == 'c' ? 1 : 2147483647;
#ifdef __CHERIC_SCAN_set
    if (c == '[') {
        __cheric_scan_set(of);
        if (*__cheric_scan_at) __cheric_scan_at++;
    }
#endif
    if (__cheric_scan_next() < 0) return -2;
    if (c == '%') {
        if (__cheric_scan_next() != '%') return -1;
        __cheric_scan_take();
        return 0;
    }
#ifdef __CHERIC_SCAN_number
    if (c == 'd' || c == 'i' || c == 'u' || c == 'o' || c == 'x' || c == 'X') {
        any = __cheric_scan_number(c == 'i' ? 0 : c == 'o' ? 8 : c == 'x' || c == 'X' ? 16 : 10, &v);
        if (any && !only) __cheric_scan_store(v, each);
    }
#endif
#if defined __CHERIC_SCAN_s || defined __CHERIC_SCAN_set || defined __CHERIC_SCAN_c
    if (c == 's' || c == '[' || c == 'c') any = __cheric_scan_bytes(c, of, only ? 0 : (char *)*__cheric_scan_to++);
#endif
    return !any ? -1 : !only;
}

int __cheric_scan(const char *s, FILE *f, const char *t, const uintptr_t *to)
{
    int done = 0, c;
    __cheric_scan_at = s;
    __cheric_scan_stream = f;
    __cheric_scan_string = t;
    __cheric_scan_to = to;
    __cheric_scan_seen = __cheric_scan_taken = 0;
    while (*__cheric_scan_at) {
        c = *__cheric_scan_at++;
        if (__cheric_scan_is_space(c)) {
            __cheric_scan_spaces();
            continue;
        }
        if (c == '%') c = __cheric_scan_conversion();
        else if (__cheric_scan_next() < 0) c = -2;
        else if (__cheric_scan_next() != c) c = -1;
        else {
            __cheric_scan_take();
            c = 0;
        }
        if (c == -2 && !done) done = -1;
        if (c < 0) break;
        done += c;
    }
    if (f && __cheric_scan_seen && __cheric_scan_byte >= 0) ungetc(__cheric_scan_byte, f);
    return done;
}
