/* POSIX: there are no files and no processes. Descriptor 0 is the input, 1 and 2 are the output. */
#ifndef __CHERIC_UNISTD_H
#define __CHERIC_UNISTD_H
#include <sys/types.h>
#define STDIN_FILENO 0
#define STDOUT_FILENO 1
#define STDERR_FILENO 2
ssize_t read(int, void *, size_t);
ssize_t write(int, const void *, size_t);
int isatty(int);
#endif
