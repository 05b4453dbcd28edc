#!/usr/bin/env python3
"""bench/library.py [--jobs N] [--cheric COMMAND] [--seed N] [--formats N] [NAME ..]: compares the library of `lib/`
with the C library of this machine. Each case is a program that calls functions on 1,000 random inputs and shows what
they give and what they wrote; it runs by the command and by `gcc -funsigned-char`, and the bytes put are compared.
Behind the cases come the formats of printf, 5,000 by default, a hundred a program, and a fifth as many of sscanf; the
headers, each read alone and all together; and the programs of `examples/errors/`, which end as their first comment
says, and mended too. NAMEs choose cases. It needs what ./cheric needs, and gcc. It proves nothing and is no part of
the gate."""
import glob
import itertools
import os
import random
import re
import subprocess
import sys
import tempfile

from calls import ROOT, answer_of, each, parser, prepared

GCC = ["gcc", "-std=gnu11", "-O1", "-funsigned-char", "-fwrapv", "-w", "-fno-builtin", "-D_GNU_SOURCE"]

# What every case stands on: random numbers that both sides draw alike, and what shows a result.
BEFORE = r"""
#include <ctype.h>
#include <errno.h>
#include <stddef.h>
#include <inttypes.h>
#include <stdint.h>
#include <stdio.h>
#include <stdlib.h>
#include <string.h>
#include <strings.h>
#include <unistd.h>
static unsigned long seed = SEED;
static unsigned long next(void)
{
    seed ^= seed << 13;
    seed ^= seed >> 7;
    seed ^= seed << 17;
    return seed;
}
static unsigned below(unsigned n) { return next() / 65536 % n; }
static void put_number(unsigned long n)
{
    if (n > 9) put_number(n / 10);
    putchar('0' + n % 10);
}
static void show(long n)
{
    if (n < 0) putchar('-');
    put_number(n < 0 ? -(unsigned long)n : n);
    putchar(' ');
}
static void show_sign(int n) { show(n < 0 ? -1 : n > 0); }
static void show_bytes(const char *p, unsigned long n)
{
    unsigned long hash = 5381, i;
    for (i = 0; i < n; i++) hash = hash * 33 + (unsigned char)p[i];
    show(hash & 0xffffffff);
}
static void show_string(const char *p)
{
    if (!p) { show(-1); return; }
    while (*p) putchar(*p++);
    putchar(' ');
}
static char a[96], b[96], c[200];
static void show_place(const char *p, const char *from) { show(p ? p - from : -1); }
/* A string over few letters, so that there is something to find, or over all bytes. */
static void draw(char *to, unsigned most)
{
    static const char few[] = "abAB \t,.01";
    unsigned n = below(most + 1), i, letters = 1 + below(10), any = below(4) == 0;
    for (i = 0; i < n; i++) to[i] = any ? 1 + below(255) : few[below(letters)];
    to[n] = 0;
}
static void draw_bytes(char *to, unsigned n)
{
    unsigned i;
    for (i = 0; i < n; i++) to[i] = below(3) ? "ab"[below(2)] : below(256);
}
static long draw_number(void)
{
    long n = next();
    switch (below(6)) {
    case 0: return n;
    case 1: return n >> 32;
    case 2: return (int)n >> 16;
    case 3: return n % 10;
    case 4: n = 1ul << below(64); return n + below(3) - 1;
    }
    n = 1ul << below(64);
    return -(n + below(3) - 1);
}
/* A numeral, whole or not. */
static void draw_numeral(char *to)
{
    unsigned n = 0, i, digits = below(4) ? below(12) : below(70), letters = below(3) ? 10 : below(3) ? 16 : 64;
    for (i = below(3); i > 0; i--) to[n++] = " \t\n\v\f\r"[below(6)];
    if (below(2)) to[n++] = "+-"[below(2)];
    if (below(4) == 0) to[n++] = '0';
    if (below(4) == 0) to[n++] = "xX"[below(2)];
    if (below(8) == 0) for (i = below(9); i > 0; i--) to[n++] = '0';
    for (i = 0; i < digits; i++)
        to[n++] = "0123456789abcdefghijklmnopqrstuvwxyzABCDEFGHIJKLMNOPQRSTUVWXYZ.,"[below(letters)];
    if (below(3) == 0) to[n++] = " -x9"[below(4)];
    to[n] = 0;
}
"""

# The functions that a case calls, what stands before `main`, and what is done for each of the 1,000 inputs.
CASES = [
    ("memcpy mempcpy", "", """
        unsigned long n = below(40), to = below(50), from = below(50);
        draw_bytes(a, 96); draw_bytes(b, 96);
        show(memcpy(a + to, b + from, n) == a + to); show_bytes(a, 96);
        show_place(mempcpy(a + from, b + to, n), a); show_bytes(a, 96);"""),
    ("memmove bcopy", "", """
        unsigned long n = below(40), to = below(50), from = below(50);
        draw_bytes(a, 96);
        show(memmove(a + to, a + from, n) == a + to); show_bytes(a, 96);
        bcopy(a + to, a + from, n); show_bytes(a, 96);"""),
    ("memcpy memmove", """
        struct item { char c; int *p; char d[5]; };
        static struct item s[12], t[12];
        static int n[12];""", """
        unsigned i, k = below(13), to = below(13 - k), from = below(13 - k);
        for (i = 0; i < 12; i++) { n[i] = below(9); s[i].c = i; s[i].p = n + i; s[i].d[4] = i; t[i] = s[i]; }
        memcpy(t + to, s + from, k * sizeof(struct item));
        for (i = 0; i < 12; i++) show(t[i].c + *t[i].p + t[i].d[4]);
        memmove(s + to, s + from, k * sizeof(struct item));
        for (i = 0; i < 12; i++) show(s[i].c + *s[i].p + s[i].d[4]);
        i = below(11);
        memcpy(&t[i].p, &s[i + 1].p, sizeof(int *)); show(*t[i].p);"""),
    ("memset bzero", "", """
        unsigned long n = below(40), to = below(50);
        int k = draw_number();
        draw_bytes(a, 96);
        show(memset(a + to, k, n) == a + to); show_bytes(a, 96);
        to = below(50); bzero(a + to, n); show_bytes(a, 96);"""),
    ("memcmp bcmp", "", """
        unsigned long n = below(40), at = below(50);
        draw_bytes(a, 96); memcpy(b, a, 96); if (below(3)) b[below(96)] ^= 4;
        show_sign(memcmp(a + at, b + at, n)); show(bcmp(a + at, b + at, n) != 0);"""),
    ("memchr memrchr memccpy", "", """
        unsigned long n = below(40), at = below(50);
        int k = below(2) ? 'a' : below(600) - 300;
        draw_bytes(a, 96); draw_bytes(b, 96);
        show_place(memchr(a + at, k, n), a); show_place(memrchr(a + at, k, n), a);
        show_place(memccpy(b, a + at, k, n), b); show_bytes(b, 96);"""),
    ("memmem", "", """
        unsigned long n = below(40), k = below(5);
        draw_bytes(a, 96); draw_bytes(b, 96);
        show_place(memmem(a, n, b, k), a);"""),
    ("strlen strnlen", "", """
        draw(a, 80); show(strlen(a)); show(strnlen(a, below(90)));"""),
    ("strcpy stpcpy strncpy", "", """
        draw(a, 60); draw_bytes(b, 96);
        show(strcpy(b, a) == b); show_bytes(b, 96);
        show_place(stpcpy(b + 5, a), b); show_bytes(b, 96);
        show(strncpy(b, a, below(90)) == b); show_bytes(b, 96);"""),
    ("strcat strncat", "", """
        draw(a, 40); draw(c, 40);
        show(strcat(c, a) == c); show_string(c);
        show(strncat(c, a, below(60)) == c); show_string(c);"""),
    ("strcmp strncmp strcoll strcasecmp strncasecmp", "", """
        unsigned n = below(20);
        draw(a, 12); draw(b, 12); if (below(2)) { strcpy(b, a); if (below(2)) b[below(12)] ^= 32; }
        show_sign(strcmp(a, b)); show_sign(strcoll(a, b)); show_sign(strncmp(a, b, n));
        show_sign(strcasecmp(a, b)); show_sign(strncasecmp(a, b, n));"""),
    ("strxfrm", "", """
        draw(a, 40); draw_bytes(b, 96); { unsigned n = below(60);
        unsigned long k = strxfrm(b, a, n); show(k); if (k < n) show_bytes(b, 96); }"""),
    ("strchr strrchr strchrnul index rindex", "", """
        int k = below(3) ? "abAB ,"[below(6)] : below(600) - 300;
        draw(a, 40);
        show_place(strchr(a, k), a); show_place(strrchr(a, k), a); show_place(strchrnul(a, k), a);
        show_place(index(a, k), a); show_place(rindex(a, k), a);"""),
    ("strspn strcspn strpbrk", "", """
        draw(a, 40); draw(b, 4);
        show(strspn(a, b)); show(strcspn(a, b)); show_place(strpbrk(a, b), a);"""),
    ("strstr", "", """
        draw(a, 60); draw(b, 3); show_place(strstr(a, b), a);"""),
    ("strtok", "", """
        char *p; draw(a, 40); draw(b, 3);
        for (p = strtok(a, b); p; p = strtok(0, below(5) ? b : ",")) { show_place(p, a); show_string(p); }
        show_bytes(a, 41);"""),
    ("strtok_r strsep", "", """
        char *p, *rest = 0; draw(a, 40); draw(b, 3); strcpy(c, a);
        for (p = strtok_r(a, b, &rest); p; p = strtok_r(0, b, &rest)) { show_place(p, a); show_string(p); }
        rest = c;
        while ((p = strsep(&rest, b)) != 0) { show_place(p, c); show_string(p); }
        show_bytes(a, 41); show_bytes(c, 41);"""),
    ("strdup strndup", "", """
        char *p; draw(a, 40);
        p = strdup(a); show_string(p); p[0] = 'x'; show_string(a); free(p);
        p = strndup(a, below(50)); show_string(p); free(p);"""),
    ("strerror perror", "", """
        static const int known[] = {0, 1, 2, 5, 7, 9, 11, 12, 13, 14, 16, 17, 20, 21, 22, 27, 28, 32, 33, 34, 36, 38,
            74, 75, 84, 90, 95, 110, 200, 4000, -1, -2147483647, 2147483647};
        show_string(strerror(known[below(33)])); putchar(10);"""),
    ("isalnum isalpha isblank iscntrl isdigit isgraph islower isprint ispunct isspace isupper isxdigit", "", """
        int k = (int)below(257) - 1;
        show(k); show(!!isalnum(k)); show(!!isalpha(k)); show(!!isblank(k)); show(!!iscntrl(k)); show(!!isdigit(k));
        show(!!isgraph(k)); show(!!islower(k)); show(!!isprint(k)); show(!!ispunct(k)); show(!!isspace(k));
        show(!!isupper(k)); show(!!isxdigit(k));"""),
    ("tolower toupper isascii toascii", "", """
        int k = (int)below(257) - 1;
        show(tolower(k)); show(toupper(k)); show(!!isascii(k)); show(toascii(k));"""),
    ("strtol strtoll strtoimax", "", """
        char *end; int base = below(3) ? (int)below(37) : 10;
        if (base == 1) base = 0;
        draw_numeral(a); show_string(a); show(base); errno = 0;
        show(strtol(a, &end, base)); show(end - a); show(errno); errno = 0;
        show(strtoll(a, &end, base)); show(end - a); show(errno); errno = 0;
        show(strtoimax(a, 0, base)); show(errno);"""),
    ("strtoul strtoull strtoumax", "", """
        char *end; int base = below(3) ? (int)below(37) : 0;
        if (base == 1) base = 16;
        draw_numeral(a); show_string(a); show(base); errno = 0;
        show(strtoul(a, &end, base)); show(end - a); show(errno); errno = 0;
        show(strtoull(a, &end, base)); show(end - a); show(errno); errno = 0;
        show(strtoumax(a, 0, base)); show(errno);"""),
    ("atoi atol atoll", "", """
        draw_numeral(a); a[9] = 0; show(atoi(a)); show(atol(a)); show(atoll(a));
        draw_numeral(a); a[18] = 0; show(atol(a)); show(atoll(a));"""),
    ("abs labs llabs imaxabs ffs", "", """
        long n = draw_number();
        show(abs((int)n)); show(labs(n)); show(llabs(n)); show(imaxabs(n)); show(ffs((int)n));"""),
    ("div ldiv lldiv imaxdiv", "", """
        long n = draw_number(), by = draw_number(); int k = (int)n, m = (int)by;
        div_t d; ldiv_t l; lldiv_t ll; imaxdiv_t x;
        if (!m) m = 7;
        if (!by) by = -3;
        if (m == -1) m = 2;
        if (by == -1) by = 2;
        d = div(k, m); l = ldiv(n, by); ll = lldiv(n, by); x = imaxdiv(n, by);
        show(d.quot); show(d.rem); show(l.quot); show(l.rem);
        show(ll.quot); show(ll.rem); show(x.quot); show(x.rem);"""),
    ("qsort", """
        struct item { int key; int order; int *p; };
        static struct item s[40];
        static int n[40];
        static int less(const void *x, const void *y)
        {
            const struct item *v = x, *w = y;
            if (v->key != w->key) return v->key < w->key ? -1 : 1;
            return v->order - w->order;
        }
        static int letter(const void *x, const void *y) { return *(const char *)x - *(const char *)y; }
        static int number(const void *x, const void *y)
        {
            long v = *(const long *)x, w = *(const long *)y;
            return (v > w) - (v < w);
        }
        static int word(const void *x, const void *y) { return strcmp(*(char *const *)x, *(char *const *)y); }""", """
        unsigned i, k = below(41); long m[40]; char *w[40];
        for (i = 0; i < k; i++) { n[i] = below(99); s[i].key = below(7); s[i].order = i; s[i].p = n + i; }
        qsort(s, k, sizeof s[0], less);
        for (i = 0; i < k; i++) { show(s[i].order); show(*s[i].p); }
        draw(a, 80); qsort(a, strlen(a), 1, letter); show_string(a);
        for (i = 0; i < k; i++) m[i] = draw_number();
        qsort(m, k, sizeof m[0], number);
        for (i = 0; i < k; i++) show(m[i]);
        draw(a, 50);
        for (i = 0; i < k; i++) w[i] = a + below(strlen(a) + 1);
        qsort(w, k, sizeof w[0], word);
        for (i = 0; i < k; i++) show_string(w[i]);"""),
    ("bsearch", """
        static int number(const void *x, const void *y) { return *(const int *)x - *(const int *)y; }""", """
        int m[30], i, k = below(31), key = below(40) - 5, *p;
        for (i = 0; i < k; i++) m[i] = i + i / 3;
        p = bsearch(&key, m, k, sizeof m[0], number);
        show(p ? p - m : -1);"""),
    ("calloc realloc reallocarray free", "", """
        unsigned n = 1 + below(80), k = 1 + below(120), i; char *p = calloc(n, 1), **q = calloc(4, sizeof(char *));
        show_bytes(p, n); show(q[3] == 0);
        for (i = 0; i < n; i++) p[i] = i;
        p = realloc(p, k); show_bytes(p, n < k ? n : k);
        q[0] = q[3] = p; q = reallocarray(q, 5 + below(9), sizeof(char *));
        show(*q[3]); show(q[0][n < k ? n - 1 : k - 1]);
        q[4] = p; show(*q[4]);
        p = realloc(0, 10); p[9] = 7; show(p[9]); free(p); free(0);
        show(calloc((size_t)-1 / 2, 3) == 0); show(reallocarray(0, (size_t)-1 / 4, 5) == 0);"""),
    ("rand srand random srandom", "", """
        unsigned k = below(5), i; int first[5], same = 1;
        srand(k);
        for (i = 0; i < 5; i++) { first[i] = rand(); same &= first[i] >= 0 && first[i] <= RAND_MAX; }
        srand(k);
        for (i = 0; i < 5; i++) same &= first[i] == rand();
        srandom(k); first[0] = random(); srandom(k); same &= first[0] == random() && first[0] >= 0;
        show(same);"""),
    ("puts fputs fputc fwrite fflush", "", """
        int k = next(), n = 1 + below(3), m = below(10);
        draw(a, 30); puts(a); fputs(a, stdout); show(fputc(k, stdout)); putc('x', stdout);
        show(fwrite(a, n, m, stdout)); show(fwrite(a, 0, 5, stdout)); show(fflush(stdout));
        show(ferror(stdout)); show(feof(stdout));"""),
    ("fgetc getc getchar ungetc fgets fread feof ferror clearerr", "", """
        int k, n; size_t m;
        switch (below(5)) {
        case 0: show(fgetc(stdin)); break;
        case 1: show(getchar()); show(getc(stdin)); break;
        case 2: k = getchar(); show(k); if (k >= 0) show(ungetc(k, stdin)); show(ungetc(EOF, stdin)); break;
        case 3: n = 1 + below(30); show(fgets(a, n, stdin) == a); show_string(a); break;
        case 4:
            draw_bytes(a, 30); n = 1 + below(3); m = fread(a, n, below(8), stdin); show(m); show_bytes(a, m * n);
            break;
        }
        if (below(9) == 0) { show(feof(stdin)); show(ferror(stdin)); }
        if (below(50) == 0) clearerr(stdin);"""),
    ("getenv fopen remove rename isatty write", "", """
        show(getenv("NO_SUCH_NAME") == 0); errno = 0; show(fopen("/no/such/file", "r") == 0); show(errno);
        show(remove("/no/such/file")); show(rename("/no/such/file", "/no/such/other")); show(isatty(7));
        draw(a, 20); fflush(stdout); show(write(1, a, strlen(a)));"""),
    ("strlcpy strlcat", """
        #ifndef __cheric__
        static size_t strlcpy(char *to, const char *s, size_t n) { return snprintf(to, n, "%s", s); }
        static size_t strlcat(char *to, const char *s, size_t n)
        {
            size_t k = strnlen(to, n);
            return k + snprintf(to + k, n - k, "%s", s);
        }
        #endif""", """
        unsigned n = below(40);
        draw(a, 40); draw_bytes(b, 96); show(strlcpy(b, a, n)); show_bytes(b, 96);
        draw(b, 30); n = below(70); show(strlcat(b, a, n)); show_bytes(b, 96);"""),
    ("printf sprintf snprintf sscanf", """
        static const char *const formats[] = {"%ld|", "%-20li|", "%+.3ld|", "%lu|", "%#lx|", "%020lX|", "% ld|",
            "%#lo|", "%.0ld|", "%5lu|", "%-#18lx|", "%.25ld|"};
        static const char *const scanned[] = {"%ld", "%li", "%3ld", "%lu", "%*ld%ld", "%lx", " %lo"};""", """
        long v = draw_number(), w = 0;
        const char *f = formats[below(12)];
        show(printf(f, v)); show(sprintf(a, f, v)); show_string(a);
        show(snprintf(b, below(96), f, v)); show_bytes(a, 96);
        sprintf(c, "%ld %ld", v >> 32, (long)below(99));
        show(sscanf(c, scanned[below(7)], &w)); show(w);"""),
    ("sys/queue.h", """
        #include <sys/queue.h>
        struct item {
            int v; TAILQ_ENTRY(item) t; LIST_ENTRY(item) l; SLIST_ENTRY(item) s; STAILQ_ENTRY(item) q;
        };
        static TAILQ_HEAD(two_ways, item) t = TAILQ_HEAD_INITIALIZER(t), u = TAILQ_HEAD_INITIALIZER(u);
        static LIST_HEAD(known, item) l = LIST_HEAD_INITIALIZER(l);
        static SLIST_HEAD(one_way, item) s = SLIST_HEAD_INITIALIZER(s);
        static STAILQ_HEAD(queue, item) q = STAILQ_HEAD_INITIALIZER(q);
        static void show_all(void)
        {
            struct item *p;
            TAILQ_FOREACH(p, &t, t) show(p->v);
            TAILQ_FOREACH_REVERSE(p, &t, two_ways, t) show(p->v);
            LIST_FOREACH(p, &l, l) show(p->v);
            SLIST_FOREACH(p, &s, s) show(p->v);
            STAILQ_FOREACH(p, &q, q) show(p->v);
            show(TAILQ_EMPTY(&t)); show(TAILQ_LAST(&t, two_ways) == 0);
        }""", """
        struct item *at = TAILQ_FIRST(&t), *p = malloc(sizeof(struct item));
        unsigned k = below(8);
        p->v = below(90);
        while (at && TAILQ_NEXT(at, t) && below(3)) at = TAILQ_NEXT(at, t);
        if (!at) k %= 2;
        if (k == 0) {
            TAILQ_INSERT_HEAD(&t, p, t); LIST_INSERT_HEAD(&l, p, l);
            SLIST_INSERT_HEAD(&s, p, s); STAILQ_INSERT_HEAD(&q, p, q);
        } else if (k == 1) {
            TAILQ_INSERT_TAIL(&t, p, t); LIST_INSERT_HEAD(&l, p, l);
            SLIST_INSERT_HEAD(&s, p, s); STAILQ_INSERT_TAIL(&q, p, q);
        } else if (k == 2) {
            TAILQ_INSERT_AFTER(&t, at, p, t); LIST_INSERT_AFTER(at, p, l);
            SLIST_INSERT_AFTER(at, p, s); STAILQ_INSERT_AFTER(&q, at, p, q);
        } else if (k == 3) {
            TAILQ_INSERT_BEFORE(at, p, t); LIST_INSERT_BEFORE(at, p, l);
            SLIST_INSERT_HEAD(&s, p, s); STAILQ_INSERT_TAIL(&q, p, q);
        } else if (k < 7) {
            TAILQ_REMOVE(&t, at, t); LIST_REMOVE(at, l); SLIST_REMOVE(&s, at, item, s); STAILQ_REMOVE(&q, at, item, q);
        } else {
            TAILQ_CONCAT(&u, &t, t); TAILQ_CONCAT(&t, &u, t);
        }
        show_all();"""),
    ("assert", """
        #include <assert.h>""", """
        assert(below(2) < 2);"""),
]

VALUES = [0, 1, -1, 7, 8, 9, 10, 15, 16, 99, 100, 127, 128, 255, 256, -128, 32767, 32768, 65535, 65536, 2**31 - 1,
          2**31, -2**31, 2**32 - 1, 2**32, 2**63 - 1, -2**63, 2**64 - 1]
TYPES = {"hh": "char", "h": "short", "": "int", "l": "long", "ll": "long long", "j": "intmax_t", "z": "ssize_t",
         "t": "ptrdiff_t"}
FLAGS = {"d": "-+ 0", "i": "-+ 0", "u": "-0+ ", "o": "-#0", "x": "-#0", "X": "-#0"}
UNSIGNED = {"j": "uintmax_t", "z": "size_t", "t": "size_t"}


def number(draw):
    value = draw.choice([draw.choice(VALUES), draw.randrange(-1000, 1000), draw.randrange(-2**63, 2**64)])
    return f"{value % 2**64}ul"


def conversion(draw, letters):
    """A conversion and its arguments."""
    letter = draw.choice(letters)
    flags = "".join(f for f in FLAGS.get(letter, "-") if draw.random() < 0.3)
    if draw.random() < 0.3:
        flags = "".join(draw.sample(flags, len(flags)))
    width = precision = size = ""
    args = []
    if letter == "%":
        return "%%", []
    if letter == "n":
        size = draw.choice(list(TYPES))
        return f"%{size}n", [f"({'signed ' if size == 'hh' else ''}{TYPES[size]} *)&counted"]
    if draw.random() < 0.5:
        width = draw.choice(["*", str(draw.randrange(1, 30))])
        if width == "*":
            args.append(str(draw.randrange(-25, 25)))
    if letter not in "cp" and draw.random() < 0.4:
        precision = draw.choice([".*", ".", f".{draw.randrange(30)}"])
        if precision == ".*":
            args.append(str(draw.randrange(-3, 25)))
    if letter == "c":
        args.append(str(draw.randrange(1, 256)))
    elif letter == "s":
        text = "".join(draw.choice("abc xyz%0") for _ in range(draw.randrange(12)))
        args.append(draw.choice([f'"{text}"', "words"]))
    elif letter == "p":
        args.append(f"(void *){draw.choice(['0', '16', '0x12345', number(draw)])}")
    else:
        size = draw.choice(list(TYPES))
        signed = letter in "di"
        of = TYPES[size] if signed else UNSIGNED.get(size, f"unsigned {TYPES[size]}")
        args.append(f"({'signed ' if of == 'char' else ''}{of}){number(draw)}")
    return f"%{flags}{width}{precision}{size}{letter}", args


def formats(draw, count):
    """A program with so many calls of printf and its kin."""
    letters = draw.choice(["diuoxXcsp%n", "diuoxXcsp%n", "d", "s", "c", "u", "di", "ds", "x", "X", "o", "dsc%", "p",
                           "dxs", "n", "uo"])
    lines, done = [], 0
    plain = draw.random() < 0.2
    while done < count:
        format, args = "", []
        for _ in range(draw.choice([1, 1, 2, 3, draw.randrange(8)])):
            piece, more = conversion(draw, letters)
            if plain and any(x in piece for x in "-+ #0123456789.*"):
                continue
            if len(args) + len(more) <= 23:
                format += draw.choice(["", "", " ", "|", "abc", "%%"]) + piece
                args += more
        text = f'"{format}|\\n"'
        if draw.random() < 0.2 and len(format) > 4:
            at = draw.randrange(1, len(format))
            text = f'"{format[:at]}" "{format[at:]}|\\n"'
        more = "".join(f", {x}" for x in args)
        call = draw.choice([
            f"show(printf({text}{more}));", f"show(fprintf(stdout, {text}{more}));",
            f"show(sprintf(text, {text}{more})); show_string(text);",
            f"show(snprintf(text, {draw.randrange(40)}, {text}{more})); show_bytes(text, 40); text[0] = 0;",
            f"show(snprintf(0, 0, {text}{more}));"])
        lines.append("    " + call + (" show(counted);" if "(&counted" in more or "&counted" in more else ""))
        done += 1
    return BEFORE + "static char text[4000], words[] = \"some words\";\nstatic long counted;\n" + parts(lines)


def readings(draw, count):
    """A program with so many calls of sscanf."""
    letters = draw.choice(["diuoxXcsn[%", "diuoxXcsn[%", "d", "s", "c", "[", "i", "x", "ds", "cn"])
    lines = []
    for _ in range(count):
        format, args, taken = "", [], ""
        for k in range(draw.randrange(1, 7)):
            letter = draw.choice(letters)
            star = width = ""
            if letter not in "n%" and draw.random() < 0.2:
                star = "*"
            if letter not in "n%" and draw.random() < 0.4:
                width = draw.randrange(4 if letter in "xXi" else 1, 8)
            size = draw.choice(["", "", "h", "hh", "l", "ll", "j", "z"]) if letter in "diuoxXn" else ""
            format += draw.choice(["", " ", "", ",", "a"])
            if letter == "[":
                letter = draw.choice(["[a-f]", "[^ ]", "[]a]", "[^],x]", "[0-9-]", "[ab-]"])
            format += f"%{star}{width}{size}{letter}"
            if not star and letter != "%":
                args.append(f"(void *)v[{len(args)}]")
            taken += draw.choice([str(draw.randrange(10**draw.randrange(1, 18))), f"{draw.randrange(2**50):x}",
                                  f"0x{draw.randrange(2**30):x}", f"-{draw.randrange(999)}", f"0{draw.randrange(999)}",
                                  "abc", "cab]-", "%", "x", "+", "-", ""])
            taken += draw.choice([" ", "  ", ","])
        more = "".join(f", {arg}" for arg in args)
        lines.append(f'    shown(sscanf("{taken}", "{format}"{more}));')
    before = "static void shown(int n) { show(n); show_bytes((char *)v, sizeof v); putchar(10); }\n"
    return BEFORE + "static char v[8][64];\n" + before + parts(lines)


def parts(lines):
    """A program that goes through these lines, in functions of a few."""
    body = "".join(f"static void part_{k}(void)\n{{\n" + "\n".join(lines[k:k + 25]) + "\n}\n"
                   for k in range(0, len(lines), 25))
    calls = " ".join(f"part_{k}();" for k in range(0, len(lines), 25))
    return body + f"int main(void)\n{{\n    {calls}\n    return 0;\n}}\n"


def program(case):
    _, before, body = case
    before = "\n".join(line.strip() if line.strip().startswith("#") else line for line in before.split("\n"))
    return BEFORE + before + f"""
static void one(void)
{{{body}
    putchar(10);
}}
int main(void)
{{
    int i;
    for (i = 0; i < 1000; i++) one();
    return 0;
}}
"""


def headers():
    """A program for each header that can be read, and one for all of them."""
    folder = f"{ROOT}/include"
    names = sorted(os.path.relpath(path, folder) for path in glob.glob(f"{folder}/**/*.h", recursive=True))
    names = [name for name in names if "#error" not in open(f"{folder}/{name}", encoding="utf-8").read()]
    end = 'int main(void) { putchar("ok"[1]); return 0; }\n'
    for name in names:
        yield f"header {name}", f"#include <{name}>\n#include <{name}>\n" + end
    yield "all headers", "".join(f"#include <{name}>\n" for name in names) + end


STATED = re.compile(r"(?:Input: (.*?)\. )?Output: (.*?)\. Then `(.*?)`, status (\d+)\. Mended: (.*?)\. Then `(.*?)`\.")
MENDED = re.compile(r"^( *).*// mend: (.*)$", re.M)


def examples(cheric):
    """What is wrong with each program of examples/errors/, as it stands and mended."""
    for path in sorted(glob.glob(f"{ROOT}/examples/errors/*.c")):
        with open(path, encoding="utf-8") as file:
            text = file.read()
        stated = STATED.search(text)
        taken, put, line, status, put_mended, line_mended = stated.groups("")
        put = "" if put == "nothing" else put
        wrong = None
        with tempfile.TemporaryDirectory() as folder:
            mended = f"{folder}/mended.c"
            with open(mended, "w", encoding="utf-8") as file:
                file.write(MENDED.sub(r"\1\2", text))
            for name, expected in [(path, (put.encode(), line, int(status))),
                                   (mended, (put_mended.encode(), line_mended, 0))]:
                answer = answer_of([cheric, "run", name], f"{taken}\n".encode())
                if (answer.output, answer.line, answer.status) != expected:
                    wrong = f"{answer}, and not {expected}"
        yield f"example {os.path.basename(path)}", wrong


def difference(here, there):
    """The first line that differs."""
    for k, (x, y) in enumerate(zip(here.split(b"\n"), there.split(b"\n"))):
        if x != y:
            return f"line {k + 1}: {x[:150]!r} here, {y[:150]!r} there"
    return f"{len(here)} bytes here, {len(there)} there"


def compared(job):
    """None where both sides put the same bytes and end with 0, else what differs."""
    name, text, alone, taken, cheric = job
    with tempfile.TemporaryDirectory() as folder:
        source, other = f"{folder}/case.c", f"{folder}/case"
        with open(source, "w", encoding="utf-8") as file:
            file.write(text)
        here = answer_of([cheric, "run", source, "--steps", "2000000000"], taken)
        if here.line != "exit 0":
            return name, f"{here} {difference(here.output, b'')}"
        if alone:
            return name, None
        made = subprocess.run(GCC + [source, "-o", other], capture_output=True, check=False)
        if made.returncode:
            return name, made.stderr.decode()[:300]
        there = subprocess.run([other], input=taken, capture_output=True, check=False)
        if here.output != there.stdout:
            return name, difference(here.output, there.stdout)
        return name, None


def main():
    words = parser(__doc__)
    words.add_argument("--seed", type=int, default=1)
    words.add_argument("--formats", type=int, default=5000)
    words.add_argument("names", nargs="*")
    asked = words.parse_args()
    cheric = prepared(asked.cheric)
    draw = random.Random(asked.seed)
    taken = bytes(draw.choice(b"abc \n\n0") if draw.random() < 0.9 else draw.randrange(256) for _ in range(9000))
    jobs, counts = [], {}
    for case in CASES:
        # The functions of a case, or a header of macros.
        if not asked.names or set(asked.names) & set(case[0].split()):
            text = program(case).replace("SEED", f"{draw.randrange(1, 2**63)}ul")
            jobs.append((case[0], text, False, taken, cheric))
            counts.update({name: 1000 for name in case[0].split()})
    if not asked.names or "printf" in asked.names:
        for k in range(0, asked.formats, 100):
            text = formats(draw, min(100, asked.formats - k)).replace("SEED", "1")
            jobs.append((f"printf {k + 1} to {min(k + 100, asked.formats)}", text, False, b"", cheric))
    if not asked.names or "scanf" in asked.names:
        for k in range(0, asked.formats // 5, 40):
            jobs.append((f"sscanf {k + 1} to {k + 40}", readings(draw, 40).replace("SEED", "1"), False, b"", cheric))
    if not asked.names:
        jobs += [(name, text, True, b"", cheric) for name, text in headers()]
    answers = itertools.chain(each(compared, jobs, asked.jobs), () if asked.names else examples(cheric))
    failed = passed = 0
    for name, wrong in answers:
        passed += not wrong
        if wrong:
            failed += 1
            print(f"FAILED {name}: {wrong}", flush=True)
    print(f"{len(counts)} functions of 1,000 inputs, {asked.formats} formats")
    print(f"{passed} passed, {failed} failed")
    sys.exit(failed > 0)


if __name__ == "__main__":
    main()
