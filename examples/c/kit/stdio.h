/* What the examples use of C's headers, for a compiler that comes without them. */
#ifndef KIT_STDIO_H
#define KIT_STDIO_H
#include <stddef.h>
typedef struct FILE FILE;
extern FILE *stdin;
int printf(const char *format, ...);
size_t fread(void *to, size_t size, size_t count, FILE *from);
#endif
