/* C11 7.14: there are no signals. The numbers are Linux's. */
#ifndef __CHERIC_SIGNAL_H
#define __CHERIC_SIGNAL_H
typedef int sig_atomic_t;
#define SIGINT 2
#define SIGILL 4
#define SIGABRT 6
#define SIGFPE 8
#define SIGSEGV 11
#define SIGTERM 15
#define signal(...) __CHERIC_LEFT_OUT("signal.h: there are no signals")
#define sigaction(...) __CHERIC_LEFT_OUT("signal.h: there are no signals")
#define raise(...) __CHERIC_LEFT_OUT("signal.h: there are no signals")
#endif
