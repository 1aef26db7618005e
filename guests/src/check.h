/* All that the device reads of what a guest says is behind five calls. Each looks at messages in the guest's memory and delivers
   what was tested. The calls have several bodies: by the proved libraries (check_library.c), by the C that tdc writes
   (check_td_c.c), and by hand (check_hand.c): tested and read once, not tested, and tested and read again. The last two take a
   chain's descriptors one by one (walk.h). */
#ifndef CHECK_H
#define CHECK_H
#include "memory.h"
#include "strike.h"

enum { MOST_SPANS = 1024, SECTOR = 512 };

typedef struct { uint64_t guest; uint32_t length; } span;

/* The buffers of one chain: those that the device reads, then those that it writes. */
typedef struct {
  span spans[MOST_SPANS];
  unsigned readable, count;
  uint64_t readable_bytes, writable_bytes;
} chain;

typedef struct { uint16_t index, head; uint32_t pending; bool no_interrupt; } available;
typedef struct { uint64_t address; uint32_t length; uint16_t next; bool has_next, writes, is_indirect; } descriptor;
typedef struct { uint32_t type; uint64_t sector, sectors; } header;
typedef struct { uint64_t sector; uint32_t sectors; bool unmap; } segment;

typedef enum { REFUSED, ACCEPTED } verdict;
/* A chain is one message where it is walked as a whole; else each of its descriptors is one. */
typedef enum { OF_AVAILABLE, OF_EVENT, OF_CHAIN, OF_DESCRIPTOR, OF_HEADER, OF_SEGMENT, KINDS } kind;
typedef struct { uint64_t accepted, rejected, loads, steps; } tally;

typedef struct check check;
struct check {
  const memory *m;
  tally tallies[KINDS];
  uint64_t beyond;     /* indices that went beyond what was tested: never, with tests that hold */
  uint64_t gathered;   /* messages that were copied first, because they lie in pieces */
  uint64_t compared;   /* messages that were read a second time, from their loads, and agreed */
  uint64_t strikes;    /* descriptors to which somebody stored while they were looked at, in STRIKE builds */
  bool is_unsupported; /* why the last header was refused: its type */
  void *body;
};

/* Counts go on, and the body of an earlier opening is taken. */
bool check_open(check *c, const memory *m);
void check_close(check *c);
verdict check_available(check *c, uint64_t ring, uint32_t size, uint16_t seen, available *a);
verdict check_event(check *c, uint64_t at, uint16_t *event);
/* The chain from a head of a table of so many entries on: at most as many buffers (2.7.5.3.1), and at most 2^32 bytes (2.7.5.2). */
verdict check_chain(check *c, uint64_t table, uint16_t size, bool may_be_indirect, uint16_t head, chain *ch);
verdict check_header(check *c, const chain *ch, uint64_t features, uint64_t capacity, header *h);
verdict check_segment(check *c, const chain *ch, uint64_t offset, uint32_t type, uint64_t capacity, uint32_t most_sectors,
                      segment *s);
extern const char check_body[];

static inline verdict counted(check *c, kind k, bool is_accepted) {
  if (is_accepted) c->tallies[k].accepted++; else c->tallies[k].rejected++;
  return is_accepted ? ACCEPTED : REFUSED;
}

static inline void chain_begin(chain *ch) {
  ch->readable = ch->count = 0;
  ch->readable_bytes = ch->writable_bytes = 0;
}

/* One buffer more. False if there are too many, or if one that is read comes behind one that is written. */
static inline bool add_span(chain *ch, span s, bool is_written) {
  if (ch->count == MOST_SPANS) return false;
  if (!is_written && ch->count != ch->readable) return false;
  ch->spans[ch->count++] = s;
  if (is_written) {
    ch->writable_bytes += s.length;
  } else {
    ch->readable++;
    ch->readable_bytes += s.length;
  }
  return true;
}

/* The pieces of a chain's readable bytes from an offset on, `size` bytes in all; 0 if the chain has too few bytes or too many
   pieces. */
static inline unsigned chain_part(const chain *ch, uint64_t offset, uint64_t size, span *out, unsigned room) {
  unsigned n = 0;
  for (unsigned k = 0; k < ch->readable && size; k++) {
    span s = ch->spans[k];
    if (offset >= s.length) { offset -= s.length; continue; }
    s.guest += offset;
    s.length -= (uint32_t)offset;
    offset = 0;
    if (s.length > size) s.length = (uint32_t)size;
    size -= s.length;
    if (n == room) return 0;
    out[n++] = s;
  }
  return size ? 0 : n;
}

/* Bytes of the guest's, each loaded once, into memory of our own. */
static inline void gather(const memory *m, const span *spans, unsigned n, uint8_t *to) {
  for (unsigned k = 0; k < n; k++) {
    const uint8_t *at = memory_at(m, spans[k].guest, spans[k].length);
    for (uint32_t i = 0; at && i < spans[k].length; i++) *to++ = __atomic_load_n(at + i, __ATOMIC_RELAXED);
  }
}
#endif
