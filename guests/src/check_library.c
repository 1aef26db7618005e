/* By the proved libraries: one session, and each message where it lies, at any byte, in one piece or in stretches; and a chain by
   one td_walk. What a message is asked and what it delivers are by the names that td-header wrote (virtio_image.h). */
#include "check.h"
#include "seen.h"
#include "seen_chain.h"
#include "td.h"
#include "td_chain.h"
#include "virtio_image.h"
#include <stdlib.h>
#include <string.h>

enum { MOST_PARTS = 16 };
const char check_body[] = "library";

typedef struct {
  td_session session;
  td_call call;
  uint64_t lowest; /* the guest's lowest address: there the words of a walk begin */
  td_region regions[MOST_REGIONS];
  td_chain_piece pieces[MOST_SPANS];
#ifdef WATCH
  seen_message seen;
  td_load loads[MOST_CHAIN_LOADS];
#endif
} body;

bool check_open(check *c, const memory *m) {
  /* The handle is kept for the queue's next start, because its slot stays with it (docs/c-library.md). */
  if (!c->body) c->body = calloc(1, sizeof(body));
  body *b = c->body;
  td_fault fault;
  c->m = m;
  if (!b) return false;
  b->lowest = m->top;
  for (unsigned k = 0; k < m->count; k++)
    if (m->regions[k].from < b->lowest) b->lowest = m->regions[k].from;
  for (unsigned k = 0; k < m->count; k++)
    b->regions[k] = (td_region){m->regions[k].from, m->regions[k].until, m->regions[k].from - b->lowest};
  return virtio_image_open(&b->session, &fault) == TD_DONE;
}

void check_close(check *c) {
  body *b = c->body;
  if (b) td_close(&b->session);
}

/* A message in stretches of these words, by the call that it was asked for. */
static int32_t validate(body *b, const uint64_t *words, size_t count, const td_stretch *parts, unsigned n) {
#ifdef WATCH
  td_load loads[MOST_SEEN];
  int32_t code = td_validate_parts_loads(&b->session, words, count, parts, n, &b->call, loads, MOST_SEEN);
  if (code != TD_ACCEPTED && code != TD_REJECTED) return code;
  seen_begin(&b->seen);
  for (unsigned i = 0; i < n; i++) seen_lies(&b->seen, (const uint8_t *)words + parts[i].place, parts[i].size);
  for (uint64_t i = 0; i < b->call.load_count; i++) seen_add(&b->seen, loads[i].stretch, words + loads[i].word, loads[i].value);
  return code;
#else
  if (n != 1) return td_validate_parts(&b->session, words, count, parts, n, &b->call);
  b->call.place = parts->place;
  b->call.length = parts->size;
  return td_validate(&b->session, words, count, &b->call);
#endif
}

/* Places of stretches have 32 bits, and a guest's addresses 64: the words begin at the lowest stretch. If another one lies
   further away than that, the bytes are gathered first. */
static verdict run(check *c, kind k, const span *parts, unsigned n) {
  body *b = c->body;
  uint64_t low = UINT64_MAX, high = 0, own[2] = {0};
  td_stretch stretches[MOST_PARTS];
  for (unsigned i = 0; i < n; i++) {
    if (!memory_at(c->m, parts[i].guest, parts[i].length)) return REFUSED;
    if (parts[i].guest < low) low = parts[i].guest;
    if (parts[i].guest + parts[i].length > high) high = parts[i].guest + parts[i].length;
  }
  low &= ~UINT64_C(7);
  int32_t code;
  if (high - low > UINT32_MAX) {
    gather(c->m, parts, n, (uint8_t *)own); /* 16 bytes: the messages in several pieces have as many */
    c->gathered++;
    code = validate(b, own, 2, &(td_stretch){0, sizeof own}, 1);
  } else {
    for (unsigned i = 0; i < n; i++) stretches[i] = (td_stretch){(uint32_t)(parts[i].guest - low), parts[i].length};
    code = validate(b, (const uint64_t *)(c->m->base + low), (high - low + 7) / 8, stretches, n);
  }
  if (code != TD_ACCEPTED && code != TD_REJECTED) {
    fprintf(stderr, "library: answer %d\n", code);
    abort();
  }
  c->tallies[k].loads += b->call.load_count;
  c->tallies[k].steps += b->call.step_count;
  return counted(c, k, code == TD_ACCEPTED);
}

/* In WATCH builds a second reading, from the loads alone. */
#ifdef WATCH
#define AGAIN(call) (call, c->compared++)
#else
#define AGAIN(call) ((void)0)
#endif

verdict check_available(check *c, uint64_t ring, uint32_t size, uint16_t taken, available *a) {
  body *b = c->body;
  struct virtio_image_AVAILABLE_r r;
  virtio_image_AVAILABLE_ask(&b->call, size, taken);
  verdict v = run(c, OF_AVAILABLE, &(span){ring, 4 + 2 * size}, 1);
  virtio_image_AVAILABLE_take(&b->session, &b->call, &r);
  *a = (available){.index = r.Index, .head = r.Head, .pending = r.Pending, .no_interrupt = r.NoInterrupt};
  AGAIN(seen_available(&b->seen, size, taken, v, a));
  return v;
}

verdict check_event(check *c, uint64_t at, uint16_t *event) {
  body *b = c->body;
  virtio_image_EVENT_ask(&b->call);
  verdict v = run(c, OF_EVENT, &(span){at, 2}, 1);
  virtio_image_EVENT_take(&b->session, &b->call, event);
  AGAIN(seen_event(&b->seen, v, *event));
  return v;
}

/* The walk of td_chain.h, with the loads in WATCH builds. */
static int32_t walk(body *b, const uint64_t *words, size_t count, unsigned regions, const td_queue *q, uint16_t head, td_chain_end *end) {
#ifdef WATCH
  return td_walk_loads(words, count, q, b->regions, regions, head, b->pieces, MOST_SPANS, b->loads, MOST_CHAIN_LOADS, end);
#else
  return td_walk(words, count, q, b->regions, regions, head, b->pieces, MOST_SPANS, end);
#endif
}

verdict check_chain(check *c, uint64_t table, uint16_t size, bool may_be_indirect, uint16_t head, chain *ch) {
  body *b = c->body;
  td_queue q = {table - b->lowest, size, may_be_indirect};
  td_chain_end end;
  size_t count = (c->m->top - b->lowest) / 8;
  int32_t code = walk(b, (const uint64_t *)(c->m->base + b->lowest), count, c->m->count, &q, head, &end);
  if (code != TD_DONE) {
    fprintf(stderr, "library: a walk answers %d\n", code);
    abort();
  }
  c->tallies[OF_CHAIN].loads += end.load_count;
  AGAIN(seen_chain(b->loads, MOST_CHAIN_LOADS, &q, b->regions, c->m->count, head, b->pieces, MOST_SPANS, &end));
  bool is_sound = end.error == TD_CHAIN_WHOLE && end.count <= MOST_SPANS;
  chain_begin(ch);
  for (uint64_t k = 0; is_sound && k < end.count; k++) {
    const td_chain_piece *p = &b->pieces[k];
    if (!add_span(ch, (span){b->lowest + p->place, p->size}, p->is_writable)) { c->beyond++; is_sound = false; }
  }
  return counted(c, OF_CHAIN, is_sound);
}

/* Whether the field at which the last message failed is the type of a block request. */
static bool is_of_type(body *b) {
  td_frame_row frame;
  return td_frame(&b->session, 0, &frame) == TD_DONE && frame.spot == TD_FIELD && frame.field == virtio_image_name_type;
}

verdict check_header(check *c, const chain *ch, uint64_t features, uint64_t capacity, header *h) {
  body *b = c->body;
  struct virtio_image_BLOCK_HEADER_r r;
  span parts[MOST_PARTS];
  unsigned n = chain_part(ch, 0, 16, parts, MOST_PARTS);
  c->is_unsupported = false;
  if (!n) return REFUSED;
  virtio_image_BLOCK_HEADER_ask(&b->call, features, capacity, ch->readable_bytes, ch->writable_bytes);
  verdict v = run(c, OF_HEADER, parts, n);
  virtio_image_BLOCK_HEADER_take(&b->session, &b->call, &r);
  *h = (header){.type = r.Type, .sector = r.Sector, .sectors = r.Sectors};
  AGAIN(seen_header(&b->seen, ch, features, capacity, v, h));
  if (v == REFUSED) c->is_unsupported = is_of_type(b);
  return v;
}

verdict check_segment(check *c, const chain *ch, uint64_t offset, uint32_t type, uint64_t capacity, uint32_t most, segment *s) {
  body *b = c->body;
  struct virtio_image_SEGMENT_r r;
  span parts[MOST_PARTS];
  unsigned n = chain_part(ch, offset, 16, parts, MOST_PARTS);
  if (!n) return REFUSED;
  virtio_image_SEGMENT_ask(&b->call, type, capacity, most);
  verdict v = run(c, OF_SEGMENT, parts, n);
  virtio_image_SEGMENT_take(&b->session, &b->call, &r);
  *s = (segment){.sector = r.Sector, .sectors = r.Sectors, .unmap = r.Unmap};
  AGAIN(seen_segment(&b->seen, type, capacity, most, v, s));
  return v;
}
