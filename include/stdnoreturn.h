/* C11 7.23. */
#ifndef __CHERIC_STDNORETURN_H
#define __CHERIC_STDNORETURN_H
#define noreturn _Noreturn
#endif
