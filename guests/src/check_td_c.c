/* By the C that tdc writes of the format, proved, for messages in pieces that begin at any byte. WRONG builds answer something else than
   what was loaded: for trying whether the second reading sees it. */
#include "virtio_device.h"
#include "walk.h"
#include <stdlib.h>
#include <string.h>
#ifdef WATCH
#include "seen.h"
static _Thread_local seen_message seen;
uint64_t seen_td_load(const uint64_t *word) {
  uint64_t value = __atomic_load_n(word, __ATOMIC_ACQUIRE);
  seen_add(&seen, seen_piece_of(&seen, word), word, value);
  strike_after(word, sizeof *word);
  return value;
}
#define BEGIN() seen_begin(&seen)
#define LIES(at, size) seen_lies(&seen, at, size)
#define AGAIN(k, call) (call, c->compared++, c->tallies[k].loads += seen.count)
#else
#define BEGIN() ((void)0)
#define LIES(at, size) ((void)0)
#define AGAIN(k, call) ((void)0)
#endif

enum { MOST_PARTS = 16 };
const char check_body[] = "td-c";

bool check_open(check *c, const memory *m) {
  c->m = m;
  return true;
}

void check_close(check *c) { (void)c; }

/* Bytes of the guest's as a piece of a message. */
static struct td_piece piece_at(const uint8_t *at, uint32_t size) {
  uint32_t place = (uintptr_t)at % 8;
  LIES(at, size);
  return (struct td_piece){(const uint64_t *)(at - place), place, size};
}

verdict check_available(check *c, uint64_t ring, uint32_t size, uint16_t taken, available *a) {
  struct virtio_device_AVAILABLE_r r;
  struct td_outcome o;
  uint32_t length = 4 + 2 * size;
  const uint8_t *at = memory_at(c->m, ring, length);
  if (!at) return REFUSED;
  memset(&r, 0, sizeof r);
  BEGIN();
  struct td_piece piece = piece_at(at, length);
  bool is_accepted = virtio_device_validate_AVAILABLE_parts(&piece, 1, size, taken, &r, &o);
  *a = (available){.index = r.Index, .head = r.Head, .pending = r.Pending, .no_interrupt = r.NoInterrupt};
  AGAIN(OF_AVAILABLE, seen_available(&seen, size, taken, is_accepted, a));
  return counted(c, OF_AVAILABLE, is_accepted);
}

verdict check_event(check *c, uint64_t where, uint16_t *event) {
  struct td_outcome o;
  const uint8_t *at = memory_at(c->m, where, 2);
  if (!at) return REFUSED;
  *event = 0;
  BEGIN();
  struct td_piece piece = piece_at(at, 2);
  bool is_accepted = virtio_device_validate_EVENT_parts(&piece, 1, event, &o);
  AGAIN(OF_EVENT, seen_event(&seen, is_accepted, *event));
  return counted(c, OF_EVENT, is_accepted);
}

static verdict check_descriptor(check *c, uint64_t where, uint32_t entries, bool may_be_indirect, descriptor *d) {
  static const region none = {1, 0};
  const region *g[MOST_REGIONS];
  struct virtio_device_DESCRIPTOR_r r;
  struct td_outcome o;
  const uint8_t *at = memory_at(c->m, where, 16);
  if (!at) return REFUSED;
  for (unsigned k = 0; k < MOST_REGIONS; k++) g[k] = k < c->m->count ? &c->m->regions[k] : &none;
  memset(&r, 0, sizeof r);
  BEGIN();
  struct td_piece piece = piece_at(at, 16);
  strike_begin(at);
  bool is_accepted = virtio_device_validate_DESCRIPTOR_parts(&piece, 1, entries, may_be_indirect, g[0]->from, g[0]->until, g[1]->from,
                                                             g[1]->until, g[2]->from, g[2]->until, g[3]->from, g[3]->until, &r, &o);
  c->strikes += strike_end();
  *d = (descriptor){.address = r.Address, .length = r.Length, .next = r.Next, .has_next = r.HasNext, .writes = r.DeviceWrites,
                    .is_indirect = r.IsIndirect};
#ifdef WRONG
  d->length--;
#endif
  AGAIN(OF_DESCRIPTOR, seen_descriptor(&seen, c->m, entries, may_be_indirect, is_accepted, d));
  return counted(c, OF_DESCRIPTOR, is_accepted);
}

/* 16 bytes of a chain, where they lie; 0 if it has fewer. */
static unsigned sixteen(check *c, const chain *ch, uint64_t offset, struct td_piece *pieces) {
  span parts[MOST_PARTS];
  unsigned n = chain_part(ch, offset, 16, parts, MOST_PARTS);
  BEGIN();
  for (unsigned k = 0; k < n; k++) {
    const uint8_t *at = memory_at(c->m, parts[k].guest, parts[k].length);
    if (!at) return 0;
    pieces[k] = piece_at(at, parts[k].length);
  }
  return n;
}

verdict check_header(check *c, const chain *ch, uint64_t features, uint64_t capacity, header *h) {
  struct virtio_device_BLOCK_HEADER_r r;
  struct td_outcome o;
  struct td_piece pieces[MOST_PARTS];
  unsigned n = sixteen(c, ch, 0, pieces);
  c->is_unsupported = false;
  if (!n) return REFUSED;
  memset(&r, 0, sizeof r);
  bool is_accepted = virtio_device_validate_BLOCK_HEADER_parts(pieces, n, features, capacity, ch->readable_bytes, ch->writable_bytes, &r, &o);
  *h = (header){.type = r.Type, .sector = r.Sector, .sectors = r.Sectors};
  AGAIN(OF_HEADER, seen_header(&seen, ch, features, capacity, is_accepted, h));
  if (!is_accepted) c->is_unsupported = o.count && !strcmp(o.frame[0].field, "type");
  return counted(c, OF_HEADER, is_accepted);
}

verdict check_segment(check *c, const chain *ch, uint64_t offset, uint32_t type, uint64_t capacity, uint32_t most, segment *s) {
  struct virtio_device_SEGMENT_r r;
  struct td_outcome o;
  struct td_piece pieces[MOST_PARTS];
  unsigned n = sixteen(c, ch, offset, pieces);
  if (!n) return REFUSED;
  memset(&r, 0, sizeof r);
  bool is_accepted = virtio_device_validate_SEGMENT_parts(pieces, n, type, capacity, most, &r, &o);
  *s = (segment){.sector = r.Sector, .sectors = r.Sectors, .unmap = r.Unmap};
  AGAIN(OF_SEGMENT, seen_segment(&seen, type, capacity, most, is_accepted, s));
  return counted(c, OF_SEGMENT, is_accepted);
}
