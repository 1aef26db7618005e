/* SPDX-License-Identifier: Apache-2.0 OR MIT
   td_heap.h: the three functions of the heap that libtd_c.a calls. libtd_heap.a (heap.c) has them over malloc, realloc and free;
   a program with a heap of its own, or with none, defines its own three in their place (examples/arena.c). */
#ifndef TD_HEAP_H
#define TD_HEAP_H
#include <stddef.h>
#include <stdint.h>
#ifdef __cplusplus
extern "C" {
#endif

/* A block of memory, or its refusal: is_ok is 1 and at the block, or is_ok is 0 and at any address but null. It is returned in
   two registers. */
typedef struct { uint64_t is_ok; void *at; } td_block;

/* A block of `size` bytes, aligned to `align`, which is at most 16. A size of 0 is answered with a block, too. */
td_block rattle_alloc(size_t size, size_t align);

/* The block at `at`, of `old_size` bytes, becomes one of `new_size` bytes, with the bytes that both have. If it is refused, the
   block stays. */
td_block rattle_realloc(void *at, size_t old_size, size_t new_size, size_t align);

/* Gives a block of `size` bytes back. */
void rattle_dealloc(void *at, size_t size);

#ifdef __cplusplus
}
#endif
#endif
