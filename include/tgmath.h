#error "tgmath.h: the language has no floating point"
