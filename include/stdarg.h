/* C11 7.16: the language has no variadic functions. The header can be read, and its type named. */
#ifndef __CHERIC_STDARG_H
#define __CHERIC_STDARG_H
typedef struct __cheric_va_list *va_list;
#define va_start(...) __CHERIC_LEFT_OUT("stdarg.h: there are no variadic functions")
#define va_arg(...) __CHERIC_LEFT_OUT("stdarg.h: there are no variadic functions")
#define va_copy(...) __CHERIC_LEFT_OUT("stdarg.h: there are no variadic functions")
#define va_end(...) __CHERIC_LEFT_OUT("stdarg.h: there are no variadic functions")
#endif
