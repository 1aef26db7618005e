/* A second reading of a chain from the loads of its walk alone, by hand: pieces, and why it is refused at which descriptor, have to be
   those that td_walk gave. A WATCH build stops if they aren't, if a word was loaded twice, and if one was loaded that has no byte of
   the queue's table or of a region. */
#ifndef SEEN_CHAIN_H
#define SEEN_CHAIN_H
#include "seen.h"
#include "td_chain.h"

/* Four for each entry of the largest queue, and once more. */
enum { MOST_CHAIN_LOADS = 4 * (32768 + 1) };

typedef struct { const td_load *loads; uint64_t count; } seen_words;

static inline uint64_t seen_word(const seen_words *s, uint64_t word) {
  for (uint64_t k = 0; k < s->count; k++)
    if (s->loads[k].word == word) return s->loads[k].value;
  seen_stop("a descriptor was tested that wasn't loaded");
  return 0;
}

/* The number of 64 bits that begins at a byte. */
static inline uint64_t seen_64(const seen_words *s, uint64_t place) {
  unsigned bits = 8 * (place % 8);
  uint64_t low = seen_word(s, place / 8) >> bits;
  return bits ? low | seen_word(s, place / 8 + 1) << (64 - bits) : low;
}

static inline bool seen_touches(uint64_t word, uint64_t place, uint64_t size) { return place < 8 * word + 8 && 8 * word < place + size; }

static inline void seen_loads(const seen_words *s, const td_queue *q, const td_region *regions, unsigned count) {
  for (uint64_t k = 0; k < s->count; k++) {
    uint64_t word = s->loads[k].word;
    bool is_open = seen_touches(word, q->table, 16 * (uint64_t)q->size);
    for (unsigned r = 0; r < count && !is_open; r++) is_open = seen_touches(word, regions[r].place, regions[r].until - regions[r].from);
    if (!is_open) seen_stop("a load of a word that has no byte of the table or of a region");
    for (uint64_t i = 0; i < k; i++)
      if (s->loads[i].word == word) seen_stop("a word is loaded twice in a walk");
  }
}

/* The byte of the words at which a range of the guest's begins; UINT64_MAX if no region has all of it. */
static inline uint64_t seen_place(const td_region *regions, unsigned count, uint64_t address, uint32_t size) {
  for (unsigned r = 0; r < count; r++)
    if (address >= regions[r].from && address <= regions[r].until && size <= regions[r].until - address)
      return regions[r].place + (address - regions[r].from);
  return UINT64_MAX;
}

static inline void seen_chain(const td_load *loads, uint64_t load_room, const td_queue *q, const td_region *regions, unsigned count,
                              uint16_t head, const td_chain_piece *pieces, uint64_t room, const td_chain_end *end) {
  seen_words s = {loads, end->load_count};
  uint64_t table = q->table, entries = q->size, n = head, found = 0, bytes = 0, left = q->size + UINT64_C(1);
  bool in_table = false, writes = false, goes_on = true;
  uint32_t error = head < q->size ? TD_CHAIN_WHOLE : TD_CHAIN_BEYOND;
  if (s.count > load_room) seen_stop("a walk has more loads than four for each entry");
  seen_loads(&s, q, regions, count);
  while (goes_on && error == TD_CHAIN_WHOLE) {
    if (!left--) { error = TD_CHAIN_TOO_LONG; break; }
    uint64_t address = seen_64(&s, table + 16 * n), rest = seen_64(&s, table + 16 * n + 8);
    uint32_t size = (uint32_t)rest;
    bool has_next = rest >> 32 & 1, is_written = rest >> 33 & 1, is_indirect = rest >> 34 & 1;
    uint64_t place = seen_place(regions, count, address, size);
    if (is_indirect) {
      if (in_table || !q->indirect) error = TD_CHAIN_NOT_ALLOWED;
      else if (has_next) error = TD_CHAIN_WITH_NEXT;
      else if (!size || size % 16) error = TD_CHAIN_BAD_TABLE;
      else if (place == UINT64_MAX) error = TD_CHAIN_OUTSIDE;
      else { table = place; entries = size / 16; n = 0; in_table = true; }
      continue;
    }
    if (place == UINT64_MAX) error = TD_CHAIN_OUTSIDE;
    else if (writes && !is_written) error = TD_CHAIN_OUT_OF_ORDER;
    else if (bytes + size > UINT64_C(1) << 32) error = TD_CHAIN_TOO_LARGE;
    else if (has_next && rest >> 48 >= entries) error = TD_CHAIN_BEYOND;
    else {
      if (found < room) {
        SAME(pieces[found].place, place);
        SAME(pieces[found].size, size);
        SAME(pieces[found].is_writable, (is_written ? 1u : 0u));
      }
      found++;
      bytes += size;
      writes = is_written;
      goes_on = has_next;
      if (has_next) n = rest >> 48;
    }
  }
  SAME(end->error, error);
  SAME(end->count, found);
  SAME(end->descriptor, (error == TD_CHAIN_WHOLE ? 0 : n));
  SAME(end->is_indirect, (error != TD_CHAIN_WHOLE && in_table ? 1u : 0u));
}
#endif
