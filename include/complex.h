#error "complex.h: the language has no complex numbers"
