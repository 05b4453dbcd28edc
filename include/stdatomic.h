#error "stdatomic.h: the language has no atomic types; there is one thread"
