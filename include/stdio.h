/* C11 7.21. There are three streams: standard input is read by `getchar`, standard output and standard error are
   written, both, by `putchar` to the one output. There are no files: `fopen` answers null.

   A call of `printf` or of its kin hands each argument as `uintptr_t` to the function of their number, up to 23: an
   integer keeps its value, and a pointer its tag and bounds. The format comes first. An argument that a format asks
   for and the call doesn't give is past the end of the array in which they stand: a trap. */
#ifndef __CHERIC_STDIO_H
#define __CHERIC_STDIO_H
#include <stddef.h>

typedef struct {
    int __cheric_number;
    int __cheric_pushed;
    int __cheric_ended;
    int __cheric_failed;
} FILE;
typedef long fpos_t;
extern FILE __cheric_stdin, __cheric_stdout, __cheric_stderr;
#define stdin (&__cheric_stdin)
#define stdout (&__cheric_stdout)
#define stderr (&__cheric_stderr)

#define EOF (-1)
#define BUFSIZ 1024
#define FILENAME_MAX 4096
#define FOPEN_MAX 16
#define L_tmpnam 20
#define TMP_MAX 10000
#define SEEK_SET 0
#define SEEK_CUR 1
#define SEEK_END 2
#define _IOFBF 0
#define _IOLBF 1
#define _IONBF 2

int remove(const char *);
int rename(const char *, const char *);
int fclose(FILE *);
int fflush(FILE *);
FILE *fopen(const char *, const char *);
FILE *freopen(const char *, const char *, FILE *);
void setbuf(FILE *, char *);
int setvbuf(FILE *, char *, int, size_t);
int fgetc(FILE *);
char *fgets(char *, int, FILE *);
int fputc(int, FILE *);
int fputs(const char *, FILE *);
int puts(const char *);
int ungetc(int, FILE *);
size_t fread(void *, size_t, size_t, FILE *);
size_t fwrite(const void *, size_t, size_t, FILE *);
int fseek(FILE *, long, int);
long ftell(FILE *);
void rewind(FILE *);
void clearerr(FILE *);
int feof(FILE *);
int ferror(FILE *);
void perror(const char *);
/* POSIX. */
int fileno(FILE *);

/* `getchar` gives back what `ungetc` pushed. */
#define getchar() fgetc(stdin)
#define getc(stream) fgetc(stream)
#define putc(byte, stream) fputc(byte, stream)

/* Gives null, for a stream that can be written. */
char *__cheric_output(FILE *);

/* Each macro counts its arguments behind the format. A format of a stream goes to no place, of room 1. */
#define printf(...) __CHERIC_PRINT(__CHERIC_COUNT(__VA_ARGS__), (char *)0, 1, __VA_ARGS__)
#define fprintf(stream, ...) __CHERIC_PRINT(__CHERIC_COUNT(__VA_ARGS__), __cheric_output(stream), 1, __VA_ARGS__)
#define sprintf(to, ...) __CHERIC_PRINT(__CHERIC_COUNT(__VA_ARGS__), to, (size_t)-1, __VA_ARGS__)
#define snprintf(to, room, ...) __CHERIC_PRINT(__CHERIC_COUNT(__VA_ARGS__), to, room, __VA_ARGS__)
#define __CHERIC_COUNT(...) \
    __CHERIC_PICK(__VA_ARGS__, 23, 22, 21, 20, 19, 18, 17, 16, 15, 14, 13, 12, 11, 10, 9, 8, 7, 6, 5, 4, 3, 2, 1, 0, )
#define __CHERIC_PICK(f, a, b, c, d, e, g, h, i, j, k, l, m, n, o, p, q, r, s, t, u, v, w, x, number, ...) number
#define __CHERIC_PRINT(number, ...) __CHERIC_PRINT_OF(number, __VA_ARGS__)
#define __CHERIC_PRINT_OF(number, ...) __CHERIC_PRINT_##number(__VA_ARGS__)
#define __CHERIC_PRINT_0(to, room, format) \
    __cheric_print_0(format, to, room)
#define __CHERIC_PRINT_1(to, room, format, a) \
    __cheric_print_1(format, to, room, (uintptr_t)(a))
#define __CHERIC_PRINT_2(to, room, format, a, b) \
    __cheric_print_2(format, to, room, (uintptr_t)(a), (uintptr_t)(b))
#define __CHERIC_PRINT_3(to, room, format, a, b, c) \
    __cheric_print_3(format, to, room, (uintptr_t)(a), (uintptr_t)(b), (uintptr_t)(c))
#define __CHERIC_PRINT_4(to, room, format, a, b, c, d) \
    __cheric_print_4(format, to, room, (uintptr_t)(a), (uintptr_t)(b), (uintptr_t)(c), (uintptr_t)(d))
#define __CHERIC_PRINT_5(to, room, format, a, b, c, d, e) \
    __cheric_print_5(format, to, room, (uintptr_t)(a), (uintptr_t)(b), (uintptr_t)(c), (uintptr_t)(d), \
        (uintptr_t)(e))
#define __CHERIC_PRINT_6(to, room, format, a, b, c, d, e, f) \
    __cheric_print_6(format, to, room, (uintptr_t)(a), (uintptr_t)(b), (uintptr_t)(c), (uintptr_t)(d), \
        (uintptr_t)(e), (uintptr_t)(f))
#define __CHERIC_PRINT_7(to, room, format, a, b, c, d, e, f, g) \
    __cheric_print_7(format, to, room, (uintptr_t)(a), (uintptr_t)(b), (uintptr_t)(c), (uintptr_t)(d), \
        (uintptr_t)(e), (uintptr_t)(f), (uintptr_t)(g))
#define __CHERIC_PRINT_8(to, room, format, a, b, c, d, e, f, g, h) \
    __cheric_print_8(format, to, room, (uintptr_t)(a), (uintptr_t)(b), (uintptr_t)(c), (uintptr_t)(d), \
        (uintptr_t)(e), (uintptr_t)(f), (uintptr_t)(g), (uintptr_t)(h))
#define __CHERIC_PRINT_9(to, room, format, a, b, c, d, e, f, g, h, i) \
    __cheric_print_9(format, to, room, (uintptr_t)(a), (uintptr_t)(b), (uintptr_t)(c), (uintptr_t)(d), \
        (uintptr_t)(e), (uintptr_t)(f), (uintptr_t)(g), (uintptr_t)(h), (uintptr_t)(i))
#define __CHERIC_PRINT_10(to, room, format, a, b, c, d, e, f, g, h, i, j) \
    __cheric_print_10(format, to, room, (uintptr_t)(a), (uintptr_t)(b), (uintptr_t)(c), (uintptr_t)(d), \
        (uintptr_t)(e), (uintptr_t)(f), (uintptr_t)(g), (uintptr_t)(h), (uintptr_t)(i), (uintptr_t)(j))
#define __CHERIC_PRINT_11(to, room, format, a, b, c, d, e, f, g, h, i, j, k) \
    __cheric_print_11(format, to, room, (uintptr_t)(a), (uintptr_t)(b), (uintptr_t)(c), (uintptr_t)(d), \
        (uintptr_t)(e), (uintptr_t)(f), (uintptr_t)(g), (uintptr_t)(h), (uintptr_t)(i), (uintptr_t)(j), \
        (uintptr_t)(k))
#define __CHERIC_PRINT_12(to, room, format, a, b, c, d, e, f, g, h, i, j, k, l) \
    __cheric_print_12(format, to, room, (uintptr_t)(a), (uintptr_t)(b), (uintptr_t)(c), (uintptr_t)(d), \
        (uintptr_t)(e), (uintptr_t)(f), (uintptr_t)(g), (uintptr_t)(h), (uintptr_t)(i), (uintptr_t)(j), \
        (uintptr_t)(k), (uintptr_t)(l))
#define __CHERIC_PRINT_13(to, room, format, a, b, c, d, e, f, g, h, i, j, k, l, m) \
    __cheric_print_13(format, to, room, (uintptr_t)(a), (uintptr_t)(b), (uintptr_t)(c), (uintptr_t)(d), \
        (uintptr_t)(e), (uintptr_t)(f), (uintptr_t)(g), (uintptr_t)(h), (uintptr_t)(i), (uintptr_t)(j), \
        (uintptr_t)(k), (uintptr_t)(l), (uintptr_t)(m))
#define __CHERIC_PRINT_14(to, room, format, a, b, c, d, e, f, g, h, i, j, k, l, m, n) \
    __cheric_print_14(format, to, room, (uintptr_t)(a), (uintptr_t)(b), (uintptr_t)(c), (uintptr_t)(d), \
        (uintptr_t)(e), (uintptr_t)(f), (uintptr_t)(g), (uintptr_t)(h), (uintptr_t)(i), (uintptr_t)(j), \
        (uintptr_t)(k), (uintptr_t)(l), (uintptr_t)(m), (uintptr_t)(n))
#define __CHERIC_PRINT_15(to, room, format, a, b, c, d, e, f, g, h, i, j, k, l, m, n, o) \
    __cheric_print_15(format, to, room, (uintptr_t)(a), (uintptr_t)(b), (uintptr_t)(c), (uintptr_t)(d), \
        (uintptr_t)(e), (uintptr_t)(f), (uintptr_t)(g), (uintptr_t)(h), (uintptr_t)(i), (uintptr_t)(j), \
        (uintptr_t)(k), (uintptr_t)(l), (uintptr_t)(m), (uintptr_t)(n), (uintptr_t)(o))
#define __CHERIC_PRINT_16(to, room, format, a, b, c, d, e, f, g, h, i, j, k, l, m, n, o, p) \
    __cheric_print_16(format, to, room, (uintptr_t)(a), (uintptr_t)(b), (uintptr_t)(c), (uintptr_t)(d), \
        (uintptr_t)(e), (uintptr_t)(f), (uintptr_t)(g), (uintptr_t)(h), (uintptr_t)(i), (uintptr_t)(j), \
        (uintptr_t)(k), (uintptr_t)(l), (uintptr_t)(m), (uintptr_t)(n), (uintptr_t)(o), (uintptr_t)(p))
#define __CHERIC_PRINT_17(to, room, format, a, b, c, d, e, f, g, h, i, j, k, l, m, n, o, p, q) \
    __cheric_print_17(format, to, room, (uintptr_t)(a), (uintptr_t)(b), (uintptr_t)(c), (uintptr_t)(d), \
        (uintptr_t)(e), (uintptr_t)(f), (uintptr_t)(g), (uintptr_t)(h), (uintptr_t)(i), (uintptr_t)(j), \
        (uintptr_t)(k), (uintptr_t)(l), (uintptr_t)(m), (uintptr_t)(n), (uintptr_t)(o), (uintptr_t)(p), \
        (uintptr_t)(q))
#define __CHERIC_PRINT_18(to, room, format, a, b, c, d, e, f, g, h, i, j, k, l, m, n, o, p, q, r) \
    __cheric_print_18(format, to, room, (uintptr_t)(a), (uintptr_t)(b), (uintptr_t)(c), (uintptr_t)(d), \
        (uintptr_t)(e), (uintptr_t)(f), (uintptr_t)(g), (uintptr_t)(h), (uintptr_t)(i), (uintptr_t)(j), \
        (uintptr_t)(k), (uintptr_t)(l), (uintptr_t)(m), (uintptr_t)(n), (uintptr_t)(o), (uintptr_t)(p), \
        (uintptr_t)(q), (uintptr_t)(r))
#define __CHERIC_PRINT_19(to, room, format, a, b, c, d, e, f, g, h, i, j, k, l, m, n, o, p, q, r, s) \
    __cheric_print_19(format, to, room, (uintptr_t)(a), (uintptr_t)(b), (uintptr_t)(c), (uintptr_t)(d), \
        (uintptr_t)(e), (uintptr_t)(f), (uintptr_t)(g), (uintptr_t)(h), (uintptr_t)(i), (uintptr_t)(j), \
        (uintptr_t)(k), (uintptr_t)(l), (uintptr_t)(m), (uintptr_t)(n), (uintptr_t)(o), (uintptr_t)(p), \
        (uintptr_t)(q), (uintptr_t)(r), (uintptr_t)(s))
#define __CHERIC_PRINT_20(to, room, format, a, b, c, d, e, f, g, h, i, j, k, l, m, n, o, p, q, r, s, t) \
    __cheric_print_20(format, to, room, (uintptr_t)(a), (uintptr_t)(b), (uintptr_t)(c), (uintptr_t)(d), \
        (uintptr_t)(e), (uintptr_t)(f), (uintptr_t)(g), (uintptr_t)(h), (uintptr_t)(i), (uintptr_t)(j), \
        (uintptr_t)(k), (uintptr_t)(l), (uintptr_t)(m), (uintptr_t)(n), (uintptr_t)(o), (uintptr_t)(p), \
        (uintptr_t)(q), (uintptr_t)(r), (uintptr_t)(s), (uintptr_t)(t))
#define __CHERIC_PRINT_21(to, room, format, a, b, c, d, e, f, g, h, i, j, k, l, m, n, o, p, q, r, s, t, u) \
    __cheric_print_21(format, to, room, (uintptr_t)(a), (uintptr_t)(b), (uintptr_t)(c), (uintptr_t)(d), \
        (uintptr_t)(e), (uintptr_t)(f), (uintptr_t)(g), (uintptr_t)(h), (uintptr_t)(i), (uintptr_t)(j), \
        (uintptr_t)(k), (uintptr_t)(l), (uintptr_t)(m), (uintptr_t)(n), (uintptr_t)(o), (uintptr_t)(p), \
        (uintptr_t)(q), (uintptr_t)(r), (uintptr_t)(s), (uintptr_t)(t), (uintptr_t)(u))
#define __CHERIC_PRINT_22(to, room, format, a, b, c, d, e, f, g, h, i, j, k, l, m, n, o, p, q, r, s, t, u, v) \
    __cheric_print_22(format, to, room, (uintptr_t)(a), (uintptr_t)(b), (uintptr_t)(c), (uintptr_t)(d), \
        (uintptr_t)(e), (uintptr_t)(f), (uintptr_t)(g), (uintptr_t)(h), (uintptr_t)(i), (uintptr_t)(j), \
        (uintptr_t)(k), (uintptr_t)(l), (uintptr_t)(m), (uintptr_t)(n), (uintptr_t)(o), (uintptr_t)(p), \
        (uintptr_t)(q), (uintptr_t)(r), (uintptr_t)(s), (uintptr_t)(t), (uintptr_t)(u), (uintptr_t)(v))
#define __CHERIC_PRINT_23(to, room, format, a, b, c, d, e, f, g, h, i, j, k, l, m, n, o, p, q, r, s, t, u, v, w) \
    __cheric_print_23(format, to, room, (uintptr_t)(a), (uintptr_t)(b), (uintptr_t)(c), (uintptr_t)(d), \
        (uintptr_t)(e), (uintptr_t)(f), (uintptr_t)(g), (uintptr_t)(h), (uintptr_t)(i), (uintptr_t)(j), \
        (uintptr_t)(k), (uintptr_t)(l), (uintptr_t)(m), (uintptr_t)(n), (uintptr_t)(o), (uintptr_t)(p), \
        (uintptr_t)(q), (uintptr_t)(r), (uintptr_t)(s), (uintptr_t)(t), (uintptr_t)(u), (uintptr_t)(v), \
        (uintptr_t)(w))

int __cheric_print_0(const char *, char *, size_t);
int __cheric_print_1(const char *, char *, size_t, uintptr_t);
int __cheric_print_2(const char *, char *, size_t, uintptr_t, uintptr_t);
int __cheric_print_3(const char *, char *, size_t, uintptr_t, uintptr_t, uintptr_t);
int __cheric_print_4(const char *, char *, size_t, uintptr_t, uintptr_t, uintptr_t, uintptr_t);
int __cheric_print_5(const char *, char *, size_t, uintptr_t, uintptr_t, uintptr_t, uintptr_t, uintptr_t);
int __cheric_print_6(const char *, char *, size_t, uintptr_t, uintptr_t, uintptr_t, uintptr_t, uintptr_t,
    uintptr_t);
int __cheric_print_7(const char *, char *, size_t, uintptr_t, uintptr_t, uintptr_t, uintptr_t, uintptr_t, uintptr_t,
    uintptr_t);
int __cheric_print_8(const char *, char *, size_t, uintptr_t, uintptr_t, uintptr_t, uintptr_t, uintptr_t, uintptr_t,
    uintptr_t, uintptr_t);
int __cheric_print_9(const char *, char *, size_t, uintptr_t, uintptr_t, uintptr_t, uintptr_t, uintptr_t, uintptr_t,
    uintptr_t, uintptr_t, uintptr_t);
int __cheric_print_10(const char *, char *, size_t, uintptr_t, uintptr_t, uintptr_t, uintptr_t, uintptr_t,
    uintptr_t, uintptr_t, uintptr_t, uintptr_t, uintptr_t);
int __cheric_print_11(const char *, char *, size_t, uintptr_t, uintptr_t, uintptr_t, uintptr_t, uintptr_t,
    uintptr_t, uintptr_t, uintptr_t, uintptr_t, uintptr_t, uintptr_t);
int __cheric_print_12(const char *, char *, size_t, uintptr_t, uintptr_t, uintptr_t, uintptr_t, uintptr_t,
    uintptr_t, uintptr_t, uintptr_t, uintptr_t, uintptr_t, uintptr_t, uintptr_t);
int __cheric_print_13(const char *, char *, size_t, uintptr_t, uintptr_t, uintptr_t, uintptr_t, uintptr_t,
    uintptr_t, uintptr_t, uintptr_t, uintptr_t, uintptr_t, uintptr_t, uintptr_t, uintptr_t);
int __cheric_print_14(const char *, char *, size_t, uintptr_t, uintptr_t, uintptr_t, uintptr_t, uintptr_t,
    uintptr_t, uintptr_t, uintptr_t, uintptr_t, uintptr_t, uintptr_t, uintptr_t, uintptr_t, uintptr_t);
int __cheric_print_15(const char *, char *, size_t, uintptr_t, uintptr_t, uintptr_t, uintptr_t, uintptr_t,
    uintptr_t, uintptr_t, uintptr_t, uintptr_t, uintptr_t, uintptr_t, uintptr_t, uintptr_t, uintptr_t, uintptr_t);
int __cheric_print_16(const char *, char *, size_t, uintptr_t, uintptr_t, uintptr_t, uintptr_t, uintptr_t,
    uintptr_t, uintptr_t, uintptr_t, uintptr_t, uintptr_t, uintptr_t, uintptr_t, uintptr_t, uintptr_t, uintptr_t,
    uintptr_t);
int __cheric_print_17(const char *, char *, size_t, uintptr_t, uintptr_t, uintptr_t, uintptr_t, uintptr_t,
    uintptr_t, uintptr_t, uintptr_t, uintptr_t, uintptr_t, uintptr_t, uintptr_t, uintptr_t, uintptr_t, uintptr_t,
    uintptr_t, uintptr_t);
int __cheric_print_18(const char *, char *, size_t, uintptr_t, uintptr_t, uintptr_t, uintptr_t, uintptr_t,
    uintptr_t, uintptr_t, uintptr_t, uintptr_t, uintptr_t, uintptr_t, uintptr_t, uintptr_t, uintptr_t, uintptr_t,
    uintptr_t, uintptr_t, uintptr_t);
int __cheric_print_19(const char *, char *, size_t, uintptr_t, uintptr_t, uintptr_t, uintptr_t, uintptr_t,
    uintptr_t, uintptr_t, uintptr_t, uintptr_t, uintptr_t, uintptr_t, uintptr_t, uintptr_t, uintptr_t, uintptr_t,
    uintptr_t, uintptr_t, uintptr_t, uintptr_t);
int __cheric_print_20(const char *, char *, size_t, uintptr_t, uintptr_t, uintptr_t, uintptr_t, uintptr_t,
    uintptr_t, uintptr_t, uintptr_t, uintptr_t, uintptr_t, uintptr_t, uintptr_t, uintptr_t, uintptr_t, uintptr_t,
    uintptr_t, uintptr_t, uintptr_t, uintptr_t, uintptr_t);
int __cheric_print_21(const char *, char *, size_t, uintptr_t, uintptr_t, uintptr_t, uintptr_t, uintptr_t,
    uintptr_t, uintptr_t, uintptr_t, uintptr_t, uintptr_t, uintptr_t, uintptr_t, uintptr_t, uintptr_t, uintptr_t,
    uintptr_t, uintptr_t, uintptr_t, uintptr_t, uintptr_t, uintptr_t);
int __cheric_print_22(const char *, char *, size_t, uintptr_t, uintptr_t, uintptr_t, uintptr_t, uintptr_t,
    uintptr_t, uintptr_t, uintptr_t, uintptr_t, uintptr_t, uintptr_t, uintptr_t, uintptr_t, uintptr_t, uintptr_t,
    uintptr_t, uintptr_t, uintptr_t, uintptr_t, uintptr_t, uintptr_t, uintptr_t);
int __cheric_print_23(const char *, char *, size_t, uintptr_t, uintptr_t, uintptr_t, uintptr_t, uintptr_t,
    uintptr_t, uintptr_t, uintptr_t, uintptr_t, uintptr_t, uintptr_t, uintptr_t, uintptr_t, uintptr_t, uintptr_t,
    uintptr_t, uintptr_t, uintptr_t, uintptr_t, uintptr_t, uintptr_t, uintptr_t, uintptr_t);

/* Each hands on the pointers behind its format, up to 12; a string is read in place of a stream. */
#define scanf(...) __CHERIC_SCAN(__CHERIC_COUNT(__VA_ARGS__), stdin, (const char *)0, __VA_ARGS__)
#define fscanf(stream, ...) __CHERIC_SCAN(__CHERIC_COUNT(__VA_ARGS__), stream, (const char *)0, __VA_ARGS__)
#define sscanf(string, ...) __CHERIC_SCAN(__CHERIC_COUNT(__VA_ARGS__), (FILE *)0, string, __VA_ARGS__)
#define __CHERIC_SCAN(number, ...) __CHERIC_SCAN_OF(number, __VA_ARGS__)
#define __CHERIC_SCAN_OF(number, ...) __CHERIC_SCAN_##number(__VA_ARGS__)
#define __CHERIC_SCAN_0(stream, string, format) \
    __cheric_scan_0(format, stream, string)
#define __CHERIC_SCAN_1(stream, string, format, a) \
    __cheric_scan_1(format, stream, string, (uintptr_t)(a))
#define __CHERIC_SCAN_2(stream, string, format, a, b) \
    __cheric_scan_2(format, stream, string, (uintptr_t)(a), (uintptr_t)(b))
#define __CHERIC_SCAN_3(stream, string, format, a, b, c) \
    __cheric_scan_3(format, stream, string, (uintptr_t)(a), (uintptr_t)(b), (uintptr_t)(c))
#define __CHERIC_SCAN_4(stream, string, format, a, b, c, d) \
    __cheric_scan_4(format, stream, string, (uintptr_t)(a), (uintptr_t)(b), (uintptr_t)(c), (uintptr_t)(d))
#define __CHERIC_SCAN_5(stream, string, format, a, b, c, d, e) \
    __cheric_scan_5(format, stream, string, (uintptr_t)(a), (uintptr_t)(b), (uintptr_t)(c), (uintptr_t)(d), \
        (uintptr_t)(e))
#define __CHERIC_SCAN_6(stream, string, format, a, b, c, d, e, f) \
    __cheric_scan_6(format, stream, string, (uintptr_t)(a), (uintptr_t)(b), (uintptr_t)(c), (uintptr_t)(d), \
        (uintptr_t)(e), (uintptr_t)(f))
#define __CHERIC_SCAN_7(stream, string, format, a, b, c, d, e, f, g) \
    __cheric_scan_7(format, stream, string, (uintptr_t)(a), (uintptr_t)(b), (uintptr_t)(c), (uintptr_t)(d), \
        (uintptr_t)(e), (uintptr_t)(f), (uintptr_t)(g))
#define __CHERIC_SCAN_8(stream, string, format, a, b, c, d, e, f, g, h) \
    __cheric_scan_8(format, stream, string, (uintptr_t)(a), (uintptr_t)(b), (uintptr_t)(c), (uintptr_t)(d), \
        (uintptr_t)(e), (uintptr_t)(f), (uintptr_t)(g), (uintptr_t)(h))
#define __CHERIC_SCAN_9(stream, string, format, a, b, c, d, e, f, g, h, i) \
    __cheric_scan_9(format, stream, string, (uintptr_t)(a), (uintptr_t)(b), (uintptr_t)(c), (uintptr_t)(d), \
        (uintptr_t)(e), (uintptr_t)(f), (uintptr_t)(g), (uintptr_t)(h), (uintptr_t)(i))
#define __CHERIC_SCAN_10(stream, string, format, a, b, c, d, e, f, g, h, i, j) \
    __cheric_scan_10(format, stream, string, (uintptr_t)(a), (uintptr_t)(b), (uintptr_t)(c), (uintptr_t)(d), \
        (uintptr_t)(e), (uintptr_t)(f), (uintptr_t)(g), (uintptr_t)(h), (uintptr_t)(i), (uintptr_t)(j))
#define __CHERIC_SCAN_11(stream, string, format, a, b, c, d, e, f, g, h, i, j, k) \
    __cheric_scan_11(format, stream, string, (uintptr_t)(a), (uintptr_t)(b), (uintptr_t)(c), (uintptr_t)(d), \
        (uintptr_t)(e), (uintptr_t)(f), (uintptr_t)(g), (uintptr_t)(h), (uintptr_t)(i), (uintptr_t)(j), \
        (uintptr_t)(k))
#define __CHERIC_SCAN_12(stream, string, format, a, b, c, d, e, f, g, h, i, j, k, l) \
    __cheric_scan_12(format, stream, string, (uintptr_t)(a), (uintptr_t)(b), (uintptr_t)(c), (uintptr_t)(d), \
        (uintptr_t)(e), (uintptr_t)(f), (uintptr_t)(g), (uintptr_t)(h), (uintptr_t)(i), (uintptr_t)(j), \
        (uintptr_t)(k), (uintptr_t)(l))

int __cheric_scan_0(const char *, FILE *, const char *);
int __cheric_scan_1(const char *, FILE *, const char *, uintptr_t);
int __cheric_scan_2(const char *, FILE *, const char *, uintptr_t, uintptr_t);
int __cheric_scan_3(const char *, FILE *, const char *, uintptr_t, uintptr_t, uintptr_t);
int __cheric_scan_4(const char *, FILE *, const char *, uintptr_t, uintptr_t, uintptr_t, uintptr_t);
int __cheric_scan_5(const char *, FILE *, const char *, uintptr_t, uintptr_t, uintptr_t, uintptr_t, uintptr_t);
int __cheric_scan_6(const char *, FILE *, const char *, uintptr_t, uintptr_t, uintptr_t, uintptr_t, uintptr_t,
    uintptr_t);
int __cheric_scan_7(const char *, FILE *, const char *, uintptr_t, uintptr_t, uintptr_t, uintptr_t, uintptr_t,
    uintptr_t, uintptr_t);
int __cheric_scan_8(const char *, FILE *, const char *, uintptr_t, uintptr_t, uintptr_t, uintptr_t, uintptr_t,
    uintptr_t, uintptr_t, uintptr_t);
int __cheric_scan_9(const char *, FILE *, const char *, uintptr_t, uintptr_t, uintptr_t, uintptr_t, uintptr_t,
    uintptr_t, uintptr_t, uintptr_t, uintptr_t);
int __cheric_scan_10(const char *, FILE *, const char *, uintptr_t, uintptr_t, uintptr_t, uintptr_t, uintptr_t,
    uintptr_t, uintptr_t, uintptr_t, uintptr_t, uintptr_t);
int __cheric_scan_11(const char *, FILE *, const char *, uintptr_t, uintptr_t, uintptr_t, uintptr_t, uintptr_t,
    uintptr_t, uintptr_t, uintptr_t, uintptr_t, uintptr_t, uintptr_t);
int __cheric_scan_12(const char *, FILE *, const char *, uintptr_t, uintptr_t, uintptr_t, uintptr_t, uintptr_t,
    uintptr_t, uintptr_t, uintptr_t, uintptr_t, uintptr_t, uintptr_t, uintptr_t);
#endif
