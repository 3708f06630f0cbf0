/* The kit's compiler comes without headers: what the tests need of this one. */
#include <stddef.h>
int printf(const char *, ...);
int snprintf(char *, size_t, const char *, ...);
