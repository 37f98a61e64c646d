/* What the examples use of C's headers, for a compiler that comes without them. */
#ifndef KIT_INTTYPES_H
#define KIT_INTTYPES_H
#include <stdint.h>
#define PRId32 __INT32_FMTd__
#define PRIu32 __UINT32_FMTu__
#define PRId64 __INT64_FMTd__
#define PRIx64 __UINT64_FMTx__
#endif
