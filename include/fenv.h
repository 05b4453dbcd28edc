#error "fenv.h: the language has no floating point"
