/* newlib leaves out the words for 64 bits in strict C99. */
#include_next <inttypes.h>
#ifndef PRIu64
#define PRIu64 "llu"
#endif
