/* By hand, for comparison. As it stands: each field is read once and tested. -DTESTS=0: nothing is tested. -DFETCHES=2: tested,
   and then read again, as if nobody stored. */
#include "walk.h"
#include <string.h>
#ifndef TESTS
#define TESTS 1
#endif
#ifndef FETCHES
#define FETCHES 1
#endif

#if !TESTS
const char check_body[] = "no tests";
#elif FETCHES == 2
const char check_body[] = "by hand, reading twice";
#else
const char check_body[] = "by hand";
#endif

bool check_open(check *c, const memory *m) {
  c->m = m;
  return true;
}

void check_close(check *c) { (void)c; }

typedef struct { uint64_t address; uint32_t length; uint16_t flags, next; } __attribute__((packed, may_alias)) raw_descriptor;
typedef struct { uint32_t type, reserved; uint64_t sector; } __attribute__((packed, may_alias)) raw_header;
typedef struct { uint64_t sector; uint32_t sectors, flags; } __attribute__((packed, may_alias)) raw_segment;
typedef uint16_t __attribute__((may_alias)) raw16;

/* Once: into a copy of our own. Twice: the copy is tested, and what is used is read anew. */
#define TAKE(type, name, at)                                       \
  const volatile type *name##_there = (const volatile type *)(at); \
  type name = *name##_there;                                       \
  (void)name##_there
#define USE(name) (FETCHES == 2 ? *name##_there : name)

verdict check_available(check *c, uint64_t ring, uint32_t size, uint16_t seen, available *a) {
  const uint8_t *at = memory_at(c->m, ring, 4 + 2 * size);
  if (!at) return REFUSED;
  TAKE(raw16, flags, at);
  uint16_t index = __atomic_load_n((const raw16 *)(at + 2), __ATOMIC_ACQUIRE), pending = (uint16_t)(index - seen);
  *a = (available){.index = index, .pending = pending, .no_interrupt = flags & 1};
  if (TESTS && pending > size) return counted(c, OF_AVAILABLE, false);
  if (!pending) return counted(c, OF_AVAILABLE, true);
  TAKE(raw16, head, at + 4 + 2 * (seen % size));
  if (TESTS && head >= size) return counted(c, OF_AVAILABLE, false);
  a->head = USE(head);
  return counted(c, OF_AVAILABLE, true);
}

verdict check_event(check *c, uint64_t where, uint16_t *event) {
  const uint8_t *at = memory_at(c->m, where, 2);
  if (!at) return REFUSED;
  *event = __atomic_load_n((const raw16 *)at, __ATOMIC_RELAXED);
  return counted(c, OF_EVENT, true);
}

static bool is_sound(const check *c, raw_descriptor r, uint32_t entries, bool may_be_indirect) {
  return memory_has(c->m, r.address, r.length) && (!(r.flags & 1) || r.next < entries)
      && (!(r.flags & 4) || (may_be_indirect && !(r.flags & 1) && r.length && r.length % 16 == 0));
}

static verdict check_descriptor(check *c, uint64_t where, uint32_t entries, bool may_be_indirect, descriptor *d) {
  const uint8_t *at = memory_at(c->m, where, 16);
  if (!at) return REFUSED;
  TAKE(raw_descriptor, r, at);
  if (TESTS && !is_sound(c, r, entries, may_be_indirect)) return counted(c, OF_DESCRIPTOR, false);
  strike_begin(at);
  strike_after(at, sizeof r);
  raw_descriptor u = USE(r);
  c->strikes += strike_end();
  *d = (descriptor){.address = u.address, .length = u.length, .next = u.next, .has_next = u.flags & 1, .writes = u.flags >> 1 & 1,
                    .is_indirect = u.flags >> 2 & 1};
  return counted(c, OF_DESCRIPTOR, true);
}

static const uint8_t *sixteen(check *c, const chain *ch, uint64_t offset, uint8_t own[16]) {
  span parts[16];
  unsigned n = chain_part(ch, offset, 16, parts, 16);
  if (!n) return 0;
  if (n == 1) return memory_at(c->m, parts[0].guest, 16);
  gather(c->m, parts, n, own);
  c->gathered++;
  return own;
}

static bool is_meant(raw_header h, const chain *ch, uint64_t features, uint64_t capacity, bool *is_unsupported) {
  bool writes = h.type == 1 || (h.type == 11 && features & 1 << 13) || (h.type == 13 && features & 1 << 14);
  uint64_t in = ch->writable_bytes - 1, out = ch->readable_bytes - 16, data = h.type ? out : in;
  *is_unsupported = !(h.type == 0 || h.type == 8 || (h.type == 4 && features & 1 << 9) || (writes && !(features & 1 << 5)));
  if (*is_unsupported) return false;
  if (h.type <= 1) return !(h.type ? in : out) && data % SECTOR == 0 && h.sector <= capacity && data / SECTOR <= capacity - h.sector;
  if (h.type == 4) return !in && !out && h.sector == 0;
  if (h.type == 8) return in == 20 && !out;
  return !in && out >= 16 && out % 16 == 0;
}

verdict check_header(check *c, const chain *ch, uint64_t features, uint64_t capacity, header *h) {
  uint8_t own[16];
  const uint8_t *at = sixteen(c, ch, 0, own);
  c->is_unsupported = false;
  if (!at) return REFUSED;
  TAKE(raw_header, r, at);
  if (TESTS && !is_meant(r, ch, features, capacity, &c->is_unsupported)) return counted(c, OF_HEADER, false);
  raw_header u = USE(r);
  uint64_t data = u.type ? ch->readable_bytes - 16 : ch->writable_bytes - 1;
  *h = (header){.type = u.type, .sector = u.type <= 1 ? u.sector : 0, .sectors = u.type <= 1 ? data / SECTOR : 0};
  return counted(c, OF_HEADER, true);
}

verdict check_segment(check *c, const chain *ch, uint64_t offset, uint32_t type, uint64_t capacity, uint32_t most, segment *s) {
  uint8_t own[16];
  const uint8_t *at = sixteen(c, ch, offset, own);
  if (!at) return REFUSED;
  TAKE(raw_segment, r, at);
  if (TESTS && !(r.sector <= capacity && r.sectors <= most && r.sectors <= capacity - r.sector && r.flags <= 1
                 && (!r.flags || type == 13))) return counted(c, OF_SEGMENT, false);
  raw_segment u = USE(r);
  *s = (segment){.sector = u.sector, .sectors = u.sectors, .unmap = u.flags & 1};
  return counted(c, OF_SEGMENT, true);
}
