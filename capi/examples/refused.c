/* Each allocation refused in turn: refused RNDIS_IMAGE. A call that is refused memory answers TD_NO_MEMORY, and nothing but the slots of handles is
   left behind it. The program brings a heap of its own, which counts blocks. */
#include "common.h"
#include "counting_heap.h"

static uint64_t words[8] = {1 | (uint64_t)48 << 32, 36 | (uint64_t)4 << 32};
static uint8_t bytes[1 << 22];
static size_t size;

/* The message in pieces of a byte each, by a session without room, again by the same, and by one that took its room before: only the
   first of these validations takes memory. */
static int32_t round_of_pieces(td_session *s, td_session *other, td_call *call) {
  td_piece pieces[48];
  for (size_t i = 0; i < 48; i++) pieces[i] = td_piece_at((const char *)words + i, 1);
  int32_t code = td_validate_pieces(s, pieces, 48, call);
  if (!code) code = td_room(other, 48);
  long before = allocations;
  if (!code) code = td_validate_pieces(s, pieces, 48, call);
  if (!code) code = td_validate_pieces(other, pieces, 48, call);
  if (allocations != before) stop("a validation of pieces took memory", allocations - before);
  return code;
}

/* Opens, takes a second session, validates by both, and closes them. The first answer that isn't TD_DONE. */
static int32_t round_of(td_session *s, td_session *other) {
  td_fault fault = {0};
  int32_t code = td_open(s, bytes, size, &fault);
  if (!code) code = td_again(s, other);
  td_call call = {0};
  call.entry = code ? 0 : entry_of(s, "RNDIS");
  call.length = 48;
  call.arg_count = 1;
  call.args[0] = 48;
  call.cell_count = 5;
  long before = allocations;
  if (!code) code = td_validate(other, words, 8, &call);
  if (allocations != before) stop("a validation took memory", allocations - before);
  static const td_stretch parts[2] = {{0, 20}, {20, 28}};
  if (!code) code = td_validate_parts(s, words, 8, parts, 2, &call);
  if (!code) code = round_of_pieces(s, other, &call);
  td_close(other);
  td_close(s);
  return code;
}

/* Publishes a code that takes another's place, and validates by a session of the one in force. The first answer that isn't TD_DONE. */
static int32_t round_of_codes(td_codes *codes, td_seat *seat, td_session *s) {
  td_fault fault = {0};
  uint32_t number = 0;
  int32_t code = td_codes_open(codes);
  for (int i = 0; i < 2 && !code; i++) code = td_codes_add(codes, bytes, size, &fault);
  if (!code) code = td_codes_begin(codes);
  if (!code) code = td_codes_seat(codes, seat);
  if (!code) code = td_seat_session(seat, 1, s);
  long before = allocations;
  if (!code) code = td_codes_publish(codes, &number);
  if (!code) code = td_seat_current(seat, &number);
  td_call call = {.length = 48, .arg_count = 1, .args = {48}, .cell_count = 5};
  call.entry = code ? 0 : entry_of(s, "RNDIS");
  if (!code) code = td_validate(s, words, 8, &call);
  if (allocations != before) stop("a publication took memory", allocations - before);
  td_close(s);
  td_seat_close(seat);
  td_codes_close(codes);
  return code;
}

static int32_t rounds(void) {
  static td_session s, other;
  static td_codes codes;
  static td_seat seat;
  int32_t code = round_of(&s, &other);
  return code ? code : round_of_codes(&codes, &seat, &s);
}

int main(int argc, char **argv) {
  if (argc != 2) stop("usage: refused RNDIS_IMAGE", 0);
  size = image_of(argv[1], bytes, sizeof bytes);
  if (rounds()) stop("the first round", 0);
  long slots = blocks, most = allocations, tried = 0;
  if (slots != 4) stop("blocks that were left", slots);
  for (refused_at = 1; refused_at <= most; refused_at++) {
    allocations = 0;
    int32_t code = rounds();
    tried += code == TD_NO_MEMORY;
    if (code && code != TD_NO_MEMORY) stop("an answer for want of memory", code);
    if (!code && allocations >= refused_at) stop("an allocation that was refused, and no call that says so", refused_at);
    if (blocks != slots) stop("blocks that were left", blocks - slots);
  }
  refused_at = 0;
  if (rounds()) stop("the last round", 0);
  printf("refused %ld of %ld allocations\n", tried, most);
  return tried == 0;
}
