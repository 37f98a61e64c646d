/* What the examples use of C's headers, for a compiler that comes without them. */
#ifndef KIT_STRING_H
#define KIT_STRING_H
#include <stddef.h>
void *memcpy(void *to, const void *from, size_t size);
#endif
