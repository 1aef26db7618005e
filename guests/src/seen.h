/* What was loaded of a message (written C: by TD_LOAD; the library: by td_validate_parts_loads), and a second reading of the
   message from these loads alone, by hand: verdict and values have to be those that the validator gave. A WATCH build stops if
   they aren't, if a word is loaded twice, and if a word is loaded that has no byte of the message. */
#ifndef SEEN_H
#define SEEN_H
#include "check.h"
#include <stdio.h>
#include <stdlib.h>

enum { MOST_SEEN = 64 };
typedef struct { unsigned piece; const uint8_t *at; uint64_t value; } seen_load;
typedef struct { const uint8_t *at; uint32_t size; } seen_piece;
typedef struct {
  seen_piece pieces[MOST_SEEN]; /* where the message lies */
  unsigned piece_count;
  seen_load loads[MOST_SEEN];
  unsigned count;
} seen_message;

static inline void seen_stop(const char *why) {
  fprintf(stderr, "WATCH: %s\n", why);
  abort();
}

static inline void seen_begin(seen_message *s) { s->count = s->piece_count = 0; }

static inline void seen_lies(seen_message *s, const uint8_t *at, uint32_t size) {
  if (s->piece_count == MOST_SEEN) seen_stop("too many pieces");
  s->pieces[s->piece_count++] = (seen_piece){at, size};
}

static inline void seen_add(seen_message *s, unsigned piece, const void *word, uint64_t value) {
  const uint8_t *at = word;
  if (s->count == MOST_SEEN) seen_stop("more loads than a message has");
  if (piece >= s->piece_count || at + 8 <= s->pieces[piece].at || at >= s->pieces[piece].at + s->pieces[piece].size)
    seen_stop("a load of a word that has no byte of the message");
  for (unsigned k = 0; k < s->count; k++)
    if (s->loads[k].piece == piece && s->loads[k].at == at) seen_stop("a word is loaded twice");
  s->loads[s->count++] = (seen_load){piece, at, value};
}

/* The piece of a word that was loaded next, as far as its address says. Loads rise within a piece, so a word that isn't above the last one
   that was loaded is a later piece's: pieces may overlap. It is the first such piece that has the word. */
static inline unsigned seen_piece_of(const seen_message *s, const void *word) {
  const uint8_t *at = word;
  unsigned p = s->count ? s->loads[s->count - 1].piece : 0;
  if (s->count && s->loads[s->count - 1].at >= at) p++;
  while (p < s->piece_count && (at + 8 <= s->pieces[p].at || at >= s->pieces[p].at + s->pieces[p].size)) p++;
  return p;
}

/* The load in which a byte of a piece was loaded; of a word that two pieces share it may be counted as the other one's. */
static inline unsigned seen_at(const seen_message *s, unsigned piece, const uint8_t *at) {
  unsigned shared = s->count;
  for (unsigned k = 0; k < s->count; k++) {
    if (s->loads[k].at > at || at >= s->loads[k].at + 8) continue;
    if (s->loads[k].piece == piece) return k;
    shared = k;
  }
  return shared;
}

/* The number of `width` bytes at a place of the message, if all of them were loaded. */
static inline bool seen_number(const seen_message *s, uint32_t place, unsigned width, uint64_t *number) {
  *number = 0;
  for (unsigned i = 0; i < width; i++) {
    uint32_t rest = place + i;
    unsigned p = 0;
    while (p < s->piece_count && rest >= s->pieces[p].size) rest -= s->pieces[p++].size;
    if (p == s->piece_count) return false;
    const uint8_t *at = s->pieces[p].at + rest;
    unsigned k = seen_at(s, p, at);
    if (k == s->count) return false;
    *number |= (s->loads[k].value >> 8 * (at - s->loads[k].at) & 0xff) << 8 * i;
  }
  return true;
}

static inline uint64_t seen_must(const seen_message *s, uint32_t place, unsigned width) {
  uint64_t number;
  if (!seen_number(s, place, width, &number)) seen_stop("a byte was tested that wasn't loaded");
  return number;
}

#define SAME(a, b) do { if ((a) != (b)) seen_stop(#a " isn't " #b); } while (0)

static inline void seen_available(const seen_message *s, uint32_t size, uint16_t taken, bool is_accepted, const available *a) {
  uint16_t index = (uint16_t)seen_must(s, 2, 2), pending = (uint16_t)(index - taken);
  bool good = pending <= size;
  if (good && pending) {
    uint64_t head = seen_must(s, 4 + 2 * (taken % size), 2);
    good = head < size;
    if (good && is_accepted) SAME(a->head, head);
  }
  SAME(is_accepted, good);
  if (!good) return;
  SAME(a->index, index);
  SAME(a->pending, pending);
  SAME(a->no_interrupt, (seen_must(s, 0, 2) & 1));
}

static inline void seen_event(const seen_message *s, bool is_accepted, uint16_t event) {
  SAME(is_accepted, true);
  SAME(event, seen_must(s, 0, 2));
}

static inline void seen_descriptor(const seen_message *s, const memory *m, uint32_t entries, bool may_be_indirect,
                                   bool is_accepted, const descriptor *d) {
  /* Field by field, as far as the validator went: what it didn't reach needn't have been loaded. */
  uint64_t address = seen_must(s, 0, 8), length = 0, flags = 0, next = 0;
  bool good = memory_has(m, address, 0);
  if (good) { length = seen_must(s, 8, 4); good = memory_has(m, address, length); }
  if (good) {
    flags = seen_must(s, 12, 2);
    good = !(flags & 4) || (may_be_indirect && !(flags & 1) && length && length % 16 == 0);
  }
  if (good) { next = seen_must(s, 14, 2); good = !(flags & 1) || next < entries; }
  SAME(is_accepted, good);
  if (!good) return;
  SAME(d->address, address);
  SAME(d->length, length);
  SAME(d->has_next, (flags & 1));
  SAME(d->writes, (flags >> 1 & 1));
  SAME(d->is_indirect, (flags >> 2 & 1));
  if (d->has_next) SAME(d->next, next);
}

static inline void seen_header(const seen_message *s, const chain *ch, uint64_t features, uint64_t capacity, bool is_accepted,
                               const header *h) {
  uint64_t type = seen_must(s, 0, 4), sector = 0, sectors = 0, in = ch->writable_bytes - 1, out = ch->readable_bytes - 16;
  bool is_read_only = features & 1 << 5, good = type == 0 || type == 8 || (type == 4 && features & 1 << 9)
      || (!is_read_only && (type == 1 || (type == 11 && features & 1 << 13) || (type == 13 && features & 1 << 14)));
  if (good && type <= 1) {
    uint64_t data = type ? out : in;
    good = data % SECTOR == 0 && (type ? in : out) == 0;
    sectors = data / SECTOR;
    if (good) sector = seen_must(s, 8, 8);
    good = good && sector <= capacity && sectors <= capacity - sector;
  } else if (good && type == 4) good = !in && !out && seen_must(s, 8, 8) == 0;
  else if (good && type == 8) good = in == 20 && !out;
  else if (good) good = !in && out >= 16 && out % 16 == 0;
  SAME(is_accepted, good);
  if (!good) return;
  SAME(h->type, type);
  SAME(h->sector, sector);
  SAME(h->sectors, sectors);
}

static inline void seen_segment(const seen_message *s, uint32_t type, uint64_t capacity, uint32_t most, bool is_accepted,
                                const segment *g) {
  uint64_t sector = seen_must(s, 0, 8), sectors = 0, flags = 0;
  bool good = sector <= capacity;
  if (good) { sectors = seen_must(s, 8, 4); good = sectors <= most && sectors <= capacity - sector; }
  if (good) { flags = seen_must(s, 12, 4); good = flags <= 1 && (!flags || type == 13); }
  SAME(is_accepted, good);
  if (!good) return;
  SAME(g->sector, sector);
  SAME(g->sectors, sectors);
  SAME(g->unmap, flags);
}
#endif
