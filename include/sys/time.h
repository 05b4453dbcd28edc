/* POSIX: a type. There is no clock. */
#ifndef __CHERIC_SYS_TIME_H
#define __CHERIC_SYS_TIME_H
#include <sys/types.h>
struct timeval {
    time_t tv_sec;
    long tv_usec;
};
#endif
