/* What the examples use of C's headers, for a compiler that comes without them. */
#ifndef KIT_STDDEF_H
#define KIT_STDDEF_H
typedef __SIZE_TYPE__ size_t;
#endif
