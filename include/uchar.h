/* C11 7.28: types. */
#ifndef __CHERIC_UCHAR_H
#define __CHERIC_UCHAR_H
#include <wchar.h>
typedef uint16_t char16_t;
typedef uint32_t char32_t;
#endif
