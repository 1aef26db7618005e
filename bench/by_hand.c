/* The four formats of docs/bench.md by hand, for fast C that loads a word once: one of the ways of bench/library.c.
   Nothing is proved of it; its answers are compared with those of the other ways. Nothing is told of a rejection. */
#include "ways.h"

#ifndef TD_LOAD
#define TD_LOAD(word) __atomic_load_n(word, __ATOMIC_ACQUIRE)
#endif

/* Numbers that begin at byte k of a word. */
static inline uint32_t low32(uint64_t word, unsigned k) { return (uint32_t)(word >> 8 * k); }
static inline uint32_t big32(uint64_t word, unsigned k) { return __builtin_bswap32(low32(word, k)); }
static inline uint32_t big16(uint64_t word, unsigned k) { return __builtin_bswap16((uint16_t)(word >> 8 * k)); }

enum { VLAN = 0x8100, TYPES = 0x0600, LENGTHS = 1500 };

/* Cells: Type, Vlan, Payload. */
bool by_hand_ethernet(const uint64_t *words, uint32_t length, struct ethernet_ETHERNET_r *r, struct td_outcome *outcome) {
  if (length < 14) return false;
  uint64_t word = TD_LOAD(words + 1);
  uint32_t kind = big16(word, 4), at = 14;
  if (kind == VLAN) {
    if (length < 18) return false;
    r->Vlan = big16(word, 6) & 0xfff;
    kind = big16(TD_LOAD(words + 2), 0);
    at = 18;
  }
  if (kind > LENGTHS ? kind < TYPES : length - at < kind) return false;
  r->Type = kind;
  r->Payload = at;
  outcome->reason = TD_NO_REASON;
  outcome->position = length;
  outcome->count = 0;
  return true;
}

/* Cells: Protocol, Source, Destination, Payload, Length. */
bool by_hand_ipv4(const uint64_t *words, uint32_t length, uint32_t packet, struct ipv4_IPV4_r *r, struct td_outcome *outcome) {
  if (length < 20) return false;
  uint64_t word = TD_LOAD(words);
  uint32_t head = 4 * (word & 15), total = big16(word, 2);
  if ((word >> 4 & 15) != 4 || head < 20 || total < head || total > packet || total > length) return false;
  word = TD_LOAD(words + 1);
  r->Protocol = word >> 8 & 255;
  r->Source = big32(word, 4);
  r->Destination = big32(TD_LOAD(words + 2), 0);
  r->Payload = head;
  r->Length = total - head;
  outcome->reason = TD_NO_REASON;
  outcome->position = total;
  outcome->count = 0;
  return true;
}

/* Bytes of rising places: the word of the last one is held. */
typedef struct {
  const uint64_t *words;
  uint32_t number;
  uint64_t held;
} bytes;

static inline uint32_t byte(bytes *b, uint32_t at) {
  if (at / 8 != b->number) {
    b->number = at / 8;
    b->held = TD_LOAD(b->words + b->number);
  }
  return b->held >> at % 8 * 8 & 255;
}

static inline uint32_t number(bytes *b, uint32_t at, unsigned count) {
  uint32_t n = 0;
  while (count--) n = n << 8 | byte(b, at++);
  return n;
}

/* The length that stands behind an option's kind is one that the kind has. */
static inline bool is_length(uint32_t kind, uint32_t size) {
  switch (kind) {
    case 2: return size == 4;
    case 3: return size == 3;
    case 4: return size == 2;
    case 5: return size == 10 || size == 18 || size == 26 || size == 34;
    case 8: return size == 10;
    default: return size >= 2;
  }
}

/* Cells: Mss, WindowScale, SackPermitted, TsVal, TsEcr, Data. */
bool by_hand_tcp(const uint64_t *words, uint32_t length, uint32_t segment, struct tcp_TCP_r *r, struct td_outcome *outcome) {
  if (length < 20) return false;
  bytes b = {words, 1, TD_LOAD(words + 1)};
  uint32_t end = 4 * (byte(&b, 12) >> 4);
  if (end < 20 || end > segment || segment > length) return false;
  for (uint32_t at = 20; at < end;) {
    uint32_t kind = byte(&b, at++);
    if (kind < 2) continue;
    if (at == end) return false;
    uint32_t size = byte(&b, at);
    if (!is_length(kind, size) || end - at < size - 1) return false;
    if (kind == 2) r->Mss = number(&b, at + 1, 2);
    if (kind == 3) r->WindowScale = byte(&b, at + 1);
    if (kind == 4) r->SackPermitted = 1;
    if (kind == 8) {
      r->TsVal = number(&b, at + 1, 4);
      r->TsEcr = number(&b, at + 5, 4);
    }
    at += size - 1;
  }
  r->Data = end;
  outcome->reason = TD_NO_REASON;
  outcome->position = segment;
  outcome->count = 0;
  return true;
}

static bool is_packet(const uint64_t *words, uint32_t length, struct rndis_RNDIS_r *r) {
  if (length < 44) return false;
  uint64_t word = TD_LOAD(words + 1);
  uint32_t offset = low32(word, 0), size = low32(word, 4);
  if (offset < 36 || offset > length - 8 || size > length - 8 - offset) return false;
  if (low32(TD_LOAD(words + 2), 4) != 0) return false;
  word = TD_LOAD(words + 3);
  uint32_t count = low32(word, 0), info_offset = low32(word, 4), info = low32(TD_LOAD(words + 4), 0);
  if (count != 0 || (info != 0 && info_offset != 36) || info > offset - 36) return false;
  r->Data = 8 + offset;
  r->DataLength = size;
  return true;
}

static bool is_request(const uint64_t *words, uint32_t length, struct rndis_RNDIS_r *r) {
  if (length < 28) return false;
  r->RequestId = low32(TD_LOAD(words + 1), 0);
  uint64_t word = TD_LOAD(words + 2);
  uint32_t info = low32(word, 0);
  if (info > length - 28 || (info != 0 && low32(word, 4) != 20)) return false;
  r->Data = 28;
  r->DataLength = info;
  return true;
}

static bool is_body(uint32_t type, const uint64_t *words, uint32_t length, struct rndis_RNDIS_r *r) {
  switch (type) {
    case 1: return is_packet(words, length, r);
    case 2:
      if (length != 24) return false;
      r->RequestId = low32(TD_LOAD(words + 1), 0);
      return true;
    case 3:
    case 8:
      if (length != 12) return false;
      r->RequestId = low32(TD_LOAD(words + 1), 0);
      return true;
    case 4:
    case 5: return is_request(words, length, r);
    case 6: return length == 12;
    default: return false;
  }
}

/* Cells: Type, Length, RequestId, Data, DataLength. */
bool by_hand_rndis(const uint64_t *words, uint32_t length, uint32_t room, struct rndis_RNDIS_r *r, struct td_outcome *outcome) {
  if (length < 8) return false;
  uint64_t word = TD_LOAD(words);
  uint32_t type = low32(word, 0), size = low32(word, 4);
  if (size < 8 || size > room || size > length || !is_body(type, words, size, r)) return false;
  r->Type = type;
  r->Length = size;
  outcome->reason = TD_NO_REASON;
  outcome->position = size;
  outcome->count = 0;
  return true;
}
