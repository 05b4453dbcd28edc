/* C11 7.29: types and limits. There are no functions of wide characters. */
#ifndef __CHERIC_WCHAR_H
#define __CHERIC_WCHAR_H
#include <stddef.h>
#include <stdint.h>
typedef unsigned int wint_t;
typedef struct {
    unsigned __cheric_state;
} mbstate_t;
#define WEOF 4294967295u
#endif
