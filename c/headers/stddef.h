/* What our C programs use of stddef.h, for x86-64 alone. */
#ifndef TURRETHOG_STDDEF
#define TURRETHOG_STDDEF
typedef unsigned long size_t;
#define NULL ((void *)0)
#endif
