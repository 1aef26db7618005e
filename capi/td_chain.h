/* SPDX-License-Identifier: Apache-2.0 OR MIT
   td_chain.h: from a head of a split virtqueue to the pieces of a message (VIRTIO 1.2, 2.7.5), in memory to which the guest keeps
   storing.

   A walk loads each 64-bit word at most once, by one atomic load, and only if the word has a byte of the queue's table or of a
   region. Its answer is the chain in every memory that holds these loads. Link libtd_c_chain.a; docs/c-library.md says what a
   program owes, and what is proved. */
#ifndef TD_CHAIN_H
#define TD_CHAIN_H
#include "td.h"
#ifdef __cplusplus
extern "C" {
#endif

/* Why a chain is refused. */
typedef enum {
  TD_CHAIN_WHOLE = 0,        /* it isn't */
  TD_CHAIN_BEYOND = 1,       /* the head, or a next, is no entry of its table */
  TD_CHAIN_OUTSIDE = 2,      /* a buffer, or an indirect table, isn't all in one region */
  TD_CHAIN_NOT_ALLOWED = 3,  /* a reference to an indirect table where that wasn't negotiated, or within such a table */
  TD_CHAIN_WITH_NEXT = 4,    /* a reference to an indirect table has a next */
  TD_CHAIN_BAD_TABLE = 5,    /* an indirect table has no bytes, or a number that isn't a multiple of 16 */
  TD_CHAIN_OUT_OF_ORDER = 6, /* a buffer that the device reads comes after one that it writes */
  TD_CHAIN_TOO_LARGE = 7,    /* the buffers have more than 2^32 bytes */
  TD_CHAIN_TOO_LONG = 8      /* there are more buffers than the queue has entries: so it is with a chain that goes round */
} td_chain_error;

/* The guest's addresses from `from` on and below `until` begin at this byte of the words. It has no bytes if `until` isn't above
   `from`. One that touches another one is to be one region with it, because a buffer lies all in one. */
typedef struct { uint64_t from, until, place; } td_region;

/* A queue: the byte of the words at which its descriptor table begins, how many entries that has (Queue Size), and whether
   VIRTIO_F_INDIRECT_DESC was negotiated. */
typedef struct { uint64_t table; uint16_t size; bool indirect; } td_queue;

/* A buffer: the byte of the words at which it begins, how many bytes it has, and 1 if the device writes it, 0 if it reads it. */
typedef struct { uint64_t place; uint32_t size, is_writable; } td_chain_piece;

/* How a walk ended. */
typedef struct {
  uint64_t count;       /* how many pieces there are: at most one more than the queue has entries */
  uint64_t load_count;  /* how many loads were made */
  uint32_t error;       /* a td_chain_error. If it isn't TD_CHAIN_WHOLE the pieces are those before the descriptor */
  uint32_t descriptor;  /* its number in its table; 0 if the chain isn't refused */
  uint32_t is_indirect; /* 1 if that is an indirect table, 0 if it is the queue's */
} td_chain_end;

/* The export. A program calls the functions below in its place. The number in its name is that of the layouts above. */
int32_t td_c_walk_1(td_words *words, size_t count, const td_queue *queue, const td_region *regions, size_t region_count,
                    uint16_t head, td_chain_piece *pieces, size_t room, td_load *loads, size_t load_room, td_chain_end *end);

/* Walks along a chain. TD_DONE: `end` says how many pieces there are, and whether the chain is refused; the rows begin with these
   pieces, as far as there is room for them. TD_PAST: the table or a region doesn't lie within the words, or these are 2^32 and
   more. TD_NO_MEMORY, TD_POINTER. If it isn't TD_DONE, nothing was loaded, and all is as before. Memory for the lists of a walk
   is taken before the first load, and given back: 80 bytes for each entry of the queue, and once more. There may be any number of
   regions; they and the queue are the caller's alone while this runs. */
static inline int32_t td_walk_loads(const uint64_t *words, size_t count, const td_queue *queue, const td_region *regions,
                                    size_t region_count, uint16_t head, td_chain_piece *pieces, size_t room, td_load *loads,
                                    size_t load_room, td_chain_end *end) {
  if ((!words && count) || (uintptr_t)words % 8 || !queue || !regions || !pieces || !loads || !end) return TD_POINTER;
  td_words w = {words, count};
  return td_c_walk_1(&w, count, queue, regions, region_count, head, pieces, room, loads, load_room, end);
}

static inline int32_t td_walk(const uint64_t *words, size_t count, const td_queue *queue, const td_region *regions,
                              size_t region_count, uint16_t head, td_chain_piece *pieces, size_t room, td_chain_end *end) {
  td_load none = {0, 0, 0};
  return td_walk_loads(words, count, queue, regions, region_count, head, pieces, room, &none, 0, end);
}

#ifdef __cplusplus
}
#endif
#endif
