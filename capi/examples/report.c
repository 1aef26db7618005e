/* Validates one message and writes the report of `td run`, and how many steps of code were run: report IMAGE ENTRY PLACE ARGS HEX[.MORE], where
   ARGS are numbers with commas, or -. The message begins at byte PLACE of the words, and MORE are bytes behind it; or PLACE is stretches, as 36+8,2+22, of the bytes that HEX is;
   or PLACE is /SIZE, and the message is pieces of so many bytes, by turns in two mappings that lie 32 TiB apart.
   Loads are written where `td run` has them too: of a message at byte 0, or of stretches. */
#define _GNU_SOURCE
#include "common.h"
#include <sys/mman.h>

enum { MOST_WORDS = 8192, MOST_STRETCHES = 64, MOST_PIECES = 1024, PIECE_ROOM = 1 << 20 };
static uint64_t words[MOST_WORDS];
static td_load loads[MOST_WORDS + MOST_PIECES];
static td_stretch parts[MOST_STRETCHES];
static td_piece pieces[MOST_PIECES];

static size_t put_hex(const char *hex, size_t digits, uint8_t *bytes, size_t room) {
  size_t size = digits / 2;
  if (size > room) stop("the message is too long", (long)size);
  for (size_t i = 0; i < size; i++) {
    unsigned value = 0;
    if (sscanf(hex + 2 * i, "%2x", &value) != 1) stop("not hexadecimal", (long)i);
    bytes[i] = (uint8_t)value;
  }
  return size;
}

static void put_args(const char *text, td_call *call) {
  while (*text && *text != '-' && call->arg_count < 16) {
    char *end = 0;
    call->args[call->arg_count++] = strtoull(text, &end, 10);
    text = *end == ',' ? end + 1 : end;
  }
}

/* Stretches: how many they are, or 0 where the text is a place. */
static size_t put_parts(const char *text) {
  size_t count = 0;
  while (count < MOST_STRETCHES && strchr(text, '+')) {
    char *end = 0;
    parts[count].place = (uint32_t)strtoul(text, &end, 10);
    if (*end != '+') stop("no stretch", (long)count);
    parts[count++].size = (uint32_t)strtoul(end + 1, &end, 10);
    text = *end == ',' ? end + 1 : end;
  }
  return count;
}

static uint8_t *mapped(uintptr_t at) {
  void *found = mmap((void *)at, PIECE_ROOM, PROT_READ | PROT_WRITE, MAP_PRIVATE | MAP_ANONYMOUS | MAP_FIXED_NOREPLACE, -1, 0);
  if (found == MAP_FAILED) stop("mmap", 0);
  memset(found, 0xa5, PIECE_ROOM);
  return found;
}

/* The message cut into pieces of so many bytes, which stand by turns in one mapping and the other, the last ones first, at any byte of a word. */
static size_t put_pieces(size_t each, const uint8_t *message, size_t length) {
  uint8_t *homes[2] = {mapped(0x200000000000), mapped(0x400000000000)};
  size_t count = 0;
  if (!each || length / each >= MOST_PIECES || MOST_PIECES * (each + 32) > PIECE_ROOM) stop("too many pieces", (long)each);
  for (size_t place = 0; place < length; place += each, count++) {
    size_t size = length - place < each ? length - place : each;
    uint8_t *at = homes[count % 2] + (MOST_PIECES - 1 - count) * ((each + 32) & ~(size_t)7) + 13 * count % 8;
    memcpy(at, message + place, size);
    pieces[count] = td_piece_at(at, (uint32_t)size);
  }
  return count;
}

/* Each load is of a word of its piece, and gave what stands there; no word is loaded twice. */
static void test_loads(const td_call *call, size_t piece_count) {
  for (size_t i = 0; i < call->load_count; i++) {
    const td_load *l = &loads[i];
    if (l->stretch >= piece_count || l->word >= (pieces[l->stretch].place + pieces[l->stretch].size + 7) / 8) stop("a load of no piece", (long)i);
    if (pieces[l->stretch].words[l->word] != l->value) stop("another value", (long)i);
    if (i && (l->stretch < l[-1].stretch || (l->stretch == l[-1].stretch && l->word <= l[-1].word))) stop("a word twice", (long)i);
  }
}

/* Stretches may overlap, and have more words than there are rows. */
static void say_loads(const td_call *call, size_t part_count) {
  for (size_t i = 0; i < call->load_count && i < sizeof loads / sizeof *loads; i++) {
    printf("load ");
    if (part_count) printf("%u ", loads[i].stretch);
    printf("%u %016llx\n", loads[i].word, (unsigned long long)loads[i].value);
  }
}

static void say_cells(td_session *s, const td_call *call) {
  for (size_t i = 0; i < call->cell_count; i++) {
    td_part part = {0};
    int32_t code = td_cell(s, call->entry, i, &part);
    if (code) stop("td_cell", code);
    printf("out %s", name_of(s, part.name));
    if (part.has_field) printf(".%s", name_of(s, part.field));
    printf(" %llu\n", (unsigned long long)call->cells[i]);
  }
}

/* What was copied: as much as the buffer has room for, never more. */
static void say_copies(td_session *s, const td_call *call, size_t count) {
  static uint8_t bytes[65536];
  for (size_t i = 0; i < count; i++) {
    td_buffer_part part = {0};
    uint64_t size = 0;
    int32_t code = td_buffer(s, call->entry, i, &part);
    if (code) stop("td_buffer", code);
    code = td_copy(s, i, bytes, part.room, &size);
    if (code) stop("td_copy", code);
    printf(size ? "copy %s " : "copy %s", name_of(s, part.name));
    for (size_t k = 0; k < size; k++) printf("%02x", bytes[k]);
    printf("\n");
  }
}

static void say_frames(td_session *s, const td_call *call) {
  for (size_t i = 0; i < call->frame_count; i++) {
    td_frame_row f = {0};
    int32_t code = td_frame(s, i, &f);
    if (code) stop("td_frame", code);
    const char *field = f.spot == TD_FIELD ? name_of(s, f.field) : f.spot == TD_WHERE ? "where" : "switch";
    printf("frame %s.%s %u\n", name_of(s, f.kind), field, f.start);
  }
}

int main(int argc, char **argv) {
  if (argc != 6) stop("usage: report IMAGE ENTRY PLACE ARGS HEX[.MORE]", 0);
  static td_session s;
  open_image(&s, argv[1]);
  td_call call = {0};
  call.entry = entry_of(&s, argv[2]);
  size_t part_count = put_parts(argv[3]), piece_count = 0, room = sizeof loads / sizeof *loads;
  bool is_cut = argv[3][0] == '/';
  call.place = part_count || is_cut ? 0 : (uint32_t)atoi(argv[3]);
  if (call.place > sizeof words) stop("the message begins after the words", (long)call.place);
  /* Bytes beside the message are no part of it. `td run`, whose loads are told too, has zeros there. */
  memset(words, call.place ? 0xa5 : 0, sizeof words);
  size_t digits = strcspn(argv[5], ".");
  uint8_t *message = (uint8_t *)words + call.place;
  call.length = (uint32_t)put_hex(argv[5], digits, message, sizeof words - call.place);
  const char *more = argv[5] + digits + (argv[5][digits] == '.');
  put_hex(more, strlen(more), message + call.length, sizeof words - call.place - call.length);
  put_args(argv[4], &call);
  td_entry_point point = {0};
  int32_t code = td_describe(&s, call.entry, &point);
  if (code) stop("td_describe", code);
  call.cell_count = (uint32_t)point.cell_count;
  size_t count = (call.place + call.length + 7) / 8;
  if (is_cut) {
    piece_count = put_pieces((size_t)atoi(argv[3] + 1), message, call.length);
    call.place = call.length = 4; /* they aren't looked at */
    code = td_validate_pieces_loads(&s, pieces, piece_count, &call, loads, room);
    test_loads(&call, piece_count);
  } else if (part_count) code = td_validate_parts_loads(&s, words, count, parts, part_count, &call, loads, room);
  else code = td_validate_loads(&s, words, count, &call, loads, room);
  if (code != TD_ACCEPTED && code != TD_REJECTED) stop("td_validate", code);
  if (code == TD_ACCEPTED) printf("accept %u\n", call.position);
  else printf("reject %s %u\n", td_reason_word(call.reason), call.position);
  say_frames(&s, &call);
  say_cells(&s, &call);
  say_copies(&s, &call, (size_t)point.buffer_count);
  if (part_count || (call.place == 0 && !is_cut)) say_loads(&call, part_count);
  printf("steps %llu\n", (unsigned long long)call.step_count);
  td_close(&s);
  return 0;
}
