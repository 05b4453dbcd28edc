#error "pthread.h: there is one thread"
