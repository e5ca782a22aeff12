/* What newer compilers call under ThreadSanitizer, for runtimes that lack it: the C library's
   functions, which every runtime watches. */
#include <stddef.h>
#include <string.h>

#define WEAK __attribute__((weak))

WEAK void *__tsan_memcpy(void *to, const void *from, size_t size) { return memcpy(to, from, size); }

WEAK void *__tsan_memmove(void *to, const void *from, size_t size) { return memmove(to, from, size); }

WEAK void *__tsan_memset(void *to, int byte, size_t size) { return memset(to, byte, size); }
