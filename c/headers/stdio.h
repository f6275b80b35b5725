/* What our C programs use of stdio.h, for x86-64 alone. */
#ifndef TURRETHOG_STDIO
#define TURRETHOG_STDIO
#include <stddef.h>
typedef struct stream FILE;
extern FILE *stdin, *stdout, *stderr;
FILE *fopen(const char *name, const char *mode);
int fclose(FILE *stream);
int ferror(FILE *stream);
size_t fread(void *to, size_t size, size_t count, FILE *stream);
size_t fwrite(const void *from, size_t size, size_t count, FILE *stream);
int fflush(FILE *stream);
int fprintf(FILE *stream, const char *format, ...);
int printf(const char *format, ...);
int snprintf(char *to, size_t room, const char *format, ...);
#endif
