/* BSD. */
#ifndef __CHERIC_SYS_PARAM_H
#define __CHERIC_SYS_PARAM_H
#include <limits.h>
#include <endian.h>
#include <sys/types.h>
#define MAXPATHLEN PATH_MAX
#ifndef MIN
#define MIN(a, b) ((a) < (b) ? (a) : (b))
#endif
#ifndef MAX
#define MAX(a, b) ((a) > (b) ? (a) : (b))
#endif
#endif
