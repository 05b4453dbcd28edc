/* C11 7.30: types. There are no functions of wide characters. */
#ifndef __CHERIC_WCTYPE_H
#define __CHERIC_WCTYPE_H
#include <wchar.h>
typedef unsigned long wctype_t;
typedef unsigned long wctrans_t;
#endif
