/* The one interface behind which bench/library.c calls each way to validate a message of docs/bench.md: the types are those of the headers that
   `tdc header` writes of the four formats. A function's name begins with that of its way. */
#ifndef WAYS_H
#define WAYS_H
#include "ethernet.h"
#include "ipv4.h"
#include "rndis.h"
#include "tcp.h"

/* A format, what stands between length and record, and the record. */
#define FORMATS_OF(X, WAY)                                                   \
  X(WAY, ethernet, (const uint64_t *words, uint32_t length, struct ethernet_ETHERNET_r *r, struct td_outcome *outcome))              \
  X(WAY, ipv4, (const uint64_t *words, uint32_t length, uint32_t packet, struct ipv4_IPV4_r *r, struct td_outcome *outcome))         \
  X(WAY, tcp, (const uint64_t *words, uint32_t length, uint32_t segment, struct tcp_TCP_r *r, struct td_outcome *outcome))           \
  X(WAY, rndis, (const uint64_t *words, uint32_t length, uint32_t room, struct rndis_RNDIS_r *r, struct td_outcome *outcome))
#define DECLARED(WAY, FORMAT, PARAMETERS) bool WAY##_##FORMAT PARAMETERS;

/* The C that tdc writes, as it is and with its functions inlined whatever their size; the library with images; by hand. */
FORMATS_OF(DECLARED, written)
FORMATS_OF(DECLARED, inlined)
FORMATS_OF(DECLARED, by_library)
FORMATS_OF(DECLARED, by_hand)

/* The images of a folder are opened; how many loads the library made so far. */
void open_library(const char *folder);
uint64_t loads_of_library(void);
#endif
