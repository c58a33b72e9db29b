/* For tests/host where there are no pages to protect: guard bytes work as ever, guard pages are plain memory. */
#include <stdlib.h>
#define PROT_NONE 0
#define PROT_READ 1
#define PROT_WRITE 2
#define MAP_PRIVATE 0
#define MAP_ANONYMOUS 0
#define MAP_FAILED NULL
#define mmap(at, size, protection, flags, file, offset) malloc(size)
#define mprotect(at, size, protection) ((void)(at), 0)
#define munmap(at, size) free(at)
