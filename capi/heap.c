/* SPDX-License-Identifier: Apache-2.0 OR MIT
   The heap of libtd_c.a: three functions over malloc, realloc and free. A program that has its own heap, or none, links its own three in
   their place (examples/arena.c). A block of `size` bytes is aligned to `align`, which is at most 16; a size of 0 is
   answered with a block, too. */
#include "td_heap.h"
#include <stdlib.h>

static char nothing;

static td_block answer(void *at) {
  return at ? (td_block){1, at} : (td_block){0, &nothing};
}

td_block rattle_alloc(size_t size, size_t align) { return answer(malloc(size ? size : align)); }

td_block rattle_realloc(void *at, size_t old_size, size_t new_size, size_t align) {
  (void)old_size;
  return answer(realloc(at, new_size ? new_size : align));
}

void rattle_dealloc(void *at, size_t size) {
  (void)size;
  free(at);
}
