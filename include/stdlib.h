/* C11 7.22, without floating point, `atexit`, `system` and multibyte characters. malloc and exit are declared before
   every file. Memory is never used again: `free` gives nothing back. */
#ifndef __CHERIC_STDLIB_H
#define __CHERIC_STDLIB_H
#include <stddef.h>
#define EXIT_SUCCESS 0
#define EXIT_FAILURE 1
#define RAND_MAX 2147483647
#define MB_CUR_MAX 1

typedef struct {
    int quot;
    int rem;
} div_t;
typedef struct {
    long quot;
    long rem;
} ldiv_t;
typedef struct {
    long long quot;
    long long rem;
} lldiv_t;

int atoi(const char *);
long atol(const char *);
long long atoll(const char *);
long strtol(const char *, char **, int);
long long strtoll(const char *, char **, int);
unsigned long strtoul(const char *, char **, int);
unsigned long long strtoull(const char *, char **, int);
int rand(void);
void srand(unsigned);
void *calloc(size_t, size_t);
void free(void *);
void *realloc(void *, size_t);
void abort(void);
void _Exit(int);
char *getenv(const char *);
void *bsearch(const void *, const void *, size_t, size_t, int (*)(const void *, const void *));
void qsort(void *, size_t, size_t, int (*)(const void *, const void *));
int abs(int);
long labs(long);
long long llabs(long long);
div_t div(int, int);
ldiv_t ldiv(long, long);
lldiv_t lldiv(long long, long long);
/* POSIX and BSD. */
long random(void);
void srandom(unsigned);
void *reallocarray(void *, size_t, size_t);
#endif
