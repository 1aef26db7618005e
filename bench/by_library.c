/* The four formats of docs/bench.md by the library for C, behind the interface of ways.h: one of the ways of bench/library.c. */
#include "ways.h"
#include "td.h"
#include <stdio.h>
#include <stdlib.h>
#include <string.h>

enum { FORMATS = 4, MOST_IMAGE = 1 << 20 };
enum { ETHERNET, IPV4, TCP, RNDIS };

static const char *const NAMES[FORMATS] = {"ethernet", "ipv4", "tcp", "rndis"};
static const char *const ENTRIES[FORMATS] = {"ETHERNET", "IPV4", "TCP", "RNDIS"};
static td_session sessions[FORMATS];
static uint32_t entries[FORMATS];
static td_call call;
static uint64_t loads;

uint64_t loads_of_library(void) { return loads; }

static void stop(const char *what, long code) {
  fprintf(stderr, "library: %s: %ld\n", what, code);
  exit(2);
}

void open_library(const char *folder) {
  static uint8_t image[MOST_IMAGE];
  for (int format = 0; format < FORMATS; format++) {
    char path[4096];
    td_fault fault = {0, 0};
    snprintf(path, sizeof path, "%s/%s.image", folder, NAMES[format]);
    FILE *file = fopen(path, "rb");
    if (!file) stop(path, 0);
    size_t size = fread(image, 1, sizeof image, file);
    fclose(file);
    int32_t code = td_open(&sessions[format], image, size, &fault);
    if (!code) code = td_entry(&sessions[format], ENTRIES[format], strlen(ENTRIES[format]), &entries[format]);
    if (code) stop(path, code);
  }
}

/* The cells are in the call before and after. */
static bool validated(int format, const uint64_t *words, uint32_t length, uint32_t args, uint32_t cells, struct td_outcome *outcome) {
  call.entry = entries[format];
  call.length = length;
  call.arg_count = args;
  call.cell_count = cells;
  int32_t code = td_validate(&sessions[format], words, (length + 7) / 8, &call);
  if (code != TD_ACCEPTED && code != TD_REJECTED) stop("td_validate", code);
  loads += call.load_count;
  outcome->reason = code == TD_ACCEPTED ? TD_NO_REASON : (td_reason)call.reason;
  outcome->position = call.position;
  outcome->count = 0;
  return code == TD_ACCEPTED;
}

bool by_library_ethernet(const uint64_t *words, uint32_t length, struct ethernet_ETHERNET_r *r, struct td_outcome *outcome) {
  call.cells[0] = r->Type, call.cells[1] = r->Vlan, call.cells[2] = r->Payload;
  if (!validated(ETHERNET, words, length, 0, 3, outcome)) return false;
  r->Type = (uint16_t)call.cells[0], r->Vlan = (uint16_t)call.cells[1], r->Payload = (uint32_t)call.cells[2];
  return true;
}

bool by_library_ipv4(const uint64_t *words, uint32_t length, uint32_t packet, struct ipv4_IPV4_r *r, struct td_outcome *outcome) {
  call.args[0] = packet;
  call.cells[0] = r->Protocol, call.cells[1] = r->Source, call.cells[2] = r->Destination, call.cells[3] = r->Payload, call.cells[4] = r->Length;
  if (!validated(IPV4, words, length, 1, 5, outcome)) return false;
  r->Protocol = (uint8_t)call.cells[0], r->Source = (uint32_t)call.cells[1], r->Destination = (uint32_t)call.cells[2];
  r->Payload = (uint32_t)call.cells[3], r->Length = (uint16_t)call.cells[4];
  return true;
}

bool by_library_tcp(const uint64_t *words, uint32_t length, uint32_t segment, struct tcp_TCP_r *r, struct td_outcome *outcome) {
  call.args[0] = segment;
  call.cells[0] = r->Mss, call.cells[1] = r->WindowScale, call.cells[2] = r->SackPermitted;
  call.cells[3] = r->TsVal, call.cells[4] = r->TsEcr, call.cells[5] = r->Data;
  if (!validated(TCP, words, length, 1, 6, outcome)) return false;
  r->Mss = (uint16_t)call.cells[0], r->WindowScale = (uint8_t)call.cells[1], r->SackPermitted = (uint8_t)call.cells[2];
  r->TsVal = (uint32_t)call.cells[3], r->TsEcr = (uint32_t)call.cells[4], r->Data = (uint32_t)call.cells[5];
  return true;
}

bool by_library_rndis(const uint64_t *words, uint32_t length, uint32_t room, struct rndis_RNDIS_r *r, struct td_outcome *outcome) {
  call.args[0] = room;
  call.cells[0] = r->Type, call.cells[1] = r->Length, call.cells[2] = r->RequestId, call.cells[3] = r->Data, call.cells[4] = r->DataLength;
  if (!validated(RNDIS, words, length, 1, 5, outcome)) return false;
  r->Type = (uint32_t)call.cells[0], r->Length = (uint32_t)call.cells[1], r->RequestId = (uint32_t)call.cells[2];
  r->Data = (uint32_t)call.cells[3], r->DataLength = (uint32_t)call.cells[4];
  return true;
}
