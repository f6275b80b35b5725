/* What our C programs use of errno.h, for x86-64 Linux alone. */
#ifndef TURRETHOG_ERRNO
#define TURRETHOG_ERRNO
int *__errno_location(void);
#define errno (*__errno_location())
#define EINTR 4
#endif
