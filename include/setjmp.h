/* C11 7.13: the language has no jump out of a function. */
#error "setjmp.h: setjmp and longjmp are left out of the language"
