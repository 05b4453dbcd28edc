/* C11 7.27: there is no clock. `time` and `clock` answer -1, as for a time that is not available. */
#ifndef __CHERIC_TIME_H
#define __CHERIC_TIME_H
#include <sys/types.h>
#define CLOCKS_PER_SEC 1000000l
#define TIME_UTC 1
typedef long clock_t;
struct timespec {
    time_t tv_sec;
    long tv_nsec;
};
struct tm {
    int tm_sec;
    int tm_min;
    int tm_hour;
    int tm_mday;
    int tm_mon;
    int tm_year;
    int tm_wday;
    int tm_yday;
    int tm_isdst;
};
clock_t clock(void);
time_t time(time_t *);
#endif
