/* C11 7.19. size_t and ptrdiff_t are declared before every file. */
#ifndef __CHERIC_STDDEF_H
#define __CHERIC_STDDEF_H
#define NULL ((void *)0)
/* Not for constant expressions: the language has none with a pointer in it. */
#define offsetof(type, member) __builtin_offsetof(type, member)
typedef int wchar_t;
typedef struct {
    long __cheric_long;
    void *__cheric_pointer;
} max_align_t;
#endif
