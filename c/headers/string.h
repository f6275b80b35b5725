/* What our C programs use of string.h, for x86-64 alone. */
#ifndef TURRETHOG_STRING
#define TURRETHOG_STRING
#include <stddef.h>
size_t strlen(const char *text);
int memcmp(const void *a, const void *b, size_t n);
void *memcpy(void *to, const void *from, size_t n);
void *memset(void *to, int byte, size_t n);
void *memchr(const void *in, int byte, size_t n);
int strcmp(const char *a, const char *b);
char *strerror(int error);
#endif
