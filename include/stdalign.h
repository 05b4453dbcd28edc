/* C11 7.15: alignof. The language leaves _Alignas out; every object stands at a multiple of 16. */
#ifndef __CHERIC_STDALIGN_H
#define __CHERIC_STDALIGN_H
#define alignof _Alignof
#define alignas _Alignas
#define __alignof_is_defined 1
#define __alignas_is_defined 1
#endif
