/* What our C programs use of time.h, for x86-64 alone. They look at no part of a struct tm themselves. */
#ifndef TURRETHOG_TIME
#define TURRETHOG_TIME
#include <stddef.h>
typedef long time_t;
struct tm;
time_t time(time_t *to);
struct tm *gmtime(const time_t *seconds);
size_t strftime(char *to, size_t room, const char *format, const struct tm *parts);
#endif
