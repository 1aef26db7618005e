/* A walk from descriptor to descriptor, each validated by itself: for validators of single messages. Nobody proved it. */
#ifndef WALK_H
#define WALK_H
#include "check.h"

#define MOST_BYTES (UINT64_C(1) << 32)

static verdict check_descriptor(check *c, uint64_t at, uint32_t entries, bool may_be_indirect, descriptor *d);

/* At most as many descriptors as the queue has, through at most one indirect table. */
verdict check_chain(check *c, uint64_t table, uint16_t size, bool may_be_indirect, uint16_t head, chain *ch) {
  uint32_t entries = size, left = size + UINT32_C(1), n = head;
  chain_begin(ch);
  for (;;) {
    descriptor d;
    if (!left--) return REFUSED;
    if (n >= entries) { c->beyond++; return REFUSED; } /* with tests that hold, never */
    if (check_descriptor(c, table + 16 * n, entries, may_be_indirect, &d) == REFUSED) return REFUSED;
    if (d.is_indirect) {
      if (!may_be_indirect) { c->beyond++; return REFUSED; }
      table = d.address;
      entries = d.length / 16;
      may_be_indirect = false;
      n = 0;
      continue;
    }
    if (!add_span(ch, (span){d.address, d.length}, d.writes)) return REFUSED;
    if (!d.has_next) return ch->readable_bytes + ch->writable_bytes <= MOST_BYTES ? ACCEPTED : REFUSED;
    n = d.next;
  }
}
#endif
