/* What the program around the library's functions asks for, and nobody calls. ThreadSanitizer of some compilers has no own names for
   three functions of the C library. */
#include <stdlib.h>
#include <string.h>

void rattle_arg(void) { abort(); }
void rattle_errno(void) { abort(); }
void rattle_set_errno(void) { abort(); }
void rattle_env(void) { abort(); }
void rattle_env_at(void) { abort(); }
int library_soak_main(void) { abort(); }
__attribute__((weak)) void *__tsan_memset(void *at, int byte, size_t size) { return memset(at, byte, size); }
__attribute__((weak)) void *__tsan_memcpy(void *to, const void *from, size_t size) { return memcpy(to, from, size); }
__attribute__((weak)) void *__tsan_memmove(void *to, const void *from, size_t size) { return memmove(to, from, size); }
