#error "threads.h: there is one thread"
