/* The kit's compiler comes without headers: what the tests need of this one. */
#include <stddef.h>
void *memcpy(void *, const void *, size_t);
void *memset(void *, int, size_t);
