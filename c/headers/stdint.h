/* What our C programs use of stdint.h, for x86-64 alone, where the kit is all there is. */
#ifndef TURRETHOG_STDINT
#define TURRETHOG_STDINT
typedef unsigned char uint8_t;
typedef unsigned int uint32_t;
typedef long int64_t;
typedef unsigned long uint64_t;
#define UINT64_C(figure) figure##ul
#define UINT32_MAX 4294967295u
#define UINT64_MAX 18446744073709551615ul
#endif
