/* A heap that counts blocks and refuses one allocation, in place of heap.c. */
#ifndef COUNTING_HEAP_H
#define COUNTING_HEAP_H
#include "td_heap.h"
#include <stdlib.h>

static long allocations, refused_at, blocks;
static char nothing;

static td_block take(void *old, size_t size) {
  if (++allocations == refused_at) return (td_block){0, &nothing};
  void *at = realloc(old, size ? size : 16);
  if (!at) return (td_block){0, &nothing};
  blocks += !old;
  return (td_block){1, at};
}

td_block rattle_alloc(size_t size, size_t align) {
  (void)align;
  return take(0, size);
}

td_block rattle_realloc(void *at, size_t old_size, size_t new_size, size_t align) {
  (void)old_size;
  (void)align;
  return take(at, new_size);
}

void rattle_dealloc(void *at, size_t size) {
  (void)size;
  blocks--;
  free(at);
}
#endif
