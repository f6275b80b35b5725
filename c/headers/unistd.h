/* What our C programs use of unistd.h, for x86-64 alone. */
#ifndef TURRETHOG_UNISTD
#define TURRETHOG_UNISTD
#include <stddef.h>
typedef long ssize_t;
typedef int pid_t;
ssize_t read(int file, void *to, size_t room);
ssize_t write(int file, const void *from, size_t length);
pid_t getpid(void);
#endif
