/* Every answer once, and what a code tells of itself: answers RNDIS_IMAGE. Each line is what was asked and what was answered. */
#include "common.h"

static uint64_t words[8];
static const td_stretch many[65]; /* one more than a message has */
static int wrong;

static void row(const char *what, int32_t wanted, int32_t found) {
  printf("%s: %d\n", what, found);
  if (wanted != found) {
    printf("  wanted %d\n", wanted);
    wrong++;
  }
}

static td_call asked(uint32_t entry) {
  td_call call = {0};
  call.entry = entry;
  call.length = 48;
  call.arg_count = 1;
  call.args[0] = 48;
  call.cell_count = 5;
  return call;
}

static void tables(td_session *s, uint32_t entry) {
  td_entry_point point = {0};
  td_part part = {0};
  row("an entry point", TD_DONE, td_describe(s, entry, &point));
  printf("entry %s\n", name_of(s, point.name));
  for (size_t i = 0; i < point.param_count; i++) {
    row("a parameter", TD_DONE, td_param(s, entry, i, &part));
    printf("param %s %u\n", name_of(s, part.name), part.bytes);
  }
  for (size_t i = 0; i < point.cell_count; i++) {
    row("a cell", TD_DONE, td_cell(s, entry, i, &part));
    printf("cell %s.%s %u%s\n", name_of(s, part.name), part.has_field ? name_of(s, part.field) : "", part.bytes, part.is_place ? " place" : "");
  }
  row("a parameter too many", TD_MISSING, td_param(s, entry, point.param_count, &part));
  row("a cell too many", TD_MISSING, td_cell(s, entry, point.cell_count, &part));
  td_buffer_part buffer = {0};
  row("a copy buffer too many", TD_MISSING, td_buffer(s, entry, point.buffer_count, &buffer));
  uint64_t size = 0;
  row("the size of a name alone", TD_DONE, td_name(s, point.name, 0, 0, &size));
  row("as many bytes as RNDIS has", 5, (int32_t)size);
  row("a name that is to stand at null", TD_POINTER, td_name(s, point.name, 0, 5, &size));
  row("a copy that no entry point has", TD_MISSING, td_copy(s, 16, 0, 0, &size));
  row("an entry point too many", TD_MISSING, td_describe(s, 99, &point));
}

static void validations(td_session *s, uint32_t entry) {
  td_call call = asked(entry);
  words[0] = 1 | (uint64_t)48 << 32;
  words[1] = 36 | (uint64_t)4 << 32;
  row("a whole message", TD_ACCEPTED, td_validate(s, words, 8, &call));
  printf("position %u reason %s data %llu of %llu\n", call.position, td_reason_word(call.reason), (unsigned long long)call.cells[3], (unsigned long long)call.cells[4]);
  row("a step or more for each load", 1, call.step_count >= call.load_count && call.load_count > 0);
  td_frame_row frame = {0};
  row("a frame where it accepted", TD_MISSING, td_frame(s, 0, &frame));
  call = asked(entry);
  words[1]++; /* data that begin a byte later, and would end after the message */
  row("a broken message", TD_REJECTED, td_validate(s, words, 8, &call));
  printf("position %u reason %s\n", call.position, td_reason_word(call.reason));
  for (size_t i = 0; i < call.frame_count; i++) {
    row("a frame", TD_DONE, td_frame(s, i, &frame));
    printf("frame %s.%s %u\n", name_of(s, frame.kind), frame.spot == TD_FIELD ? name_of(s, frame.field) : frame.spot == TD_WHERE ? "where" : "switch", frame.start);
  }
  row("a frame too many", TD_MISSING, td_frame(s, call.frame_count, &frame));
}

static void loads(td_session *s, uint32_t entry) {
  td_call call = asked(entry);
  td_load seen[8] = {{9, 9, 9}}, few[2] = {{9, 9, 9}, {9, 9, 9}};
  words[1] = 36 | (uint64_t)4 << 32;
  row("a whole message, with its loads", TD_ACCEPTED, td_validate_loads(s, words, 8, &call, seen, 8));
  row("how many", 5, (int32_t)call.load_count);
  for (uint32_t i = 0; i < 5; i++) row("a load", 1, seen[i].stretch == 0 && seen[i].word == i && seen[i].value == words[i]);
  call = asked(entry);
  row("the same, with room for one", TD_ACCEPTED, td_validate_loads(s, words, 8, &call, few, 1));
  row("how many, in all", 5, (int32_t)call.load_count);
  row("the first one", 1, few[0].word == 0 && few[0].value == words[0]);
  row("and nothing behind it", 1, few[1].stretch == 9 && few[1].word == 9 && few[1].value == 9);
  call = asked(entry);
  static const td_stretch parts[2] = {{8, 8}, {24, 40}}; /* type and length in word 1 */
  uint64_t scattered[8] = {0, words[0], 0, words[1]};
  row("a message in two stretches", TD_ACCEPTED, td_validate_parts_loads(s, scattered, 8, parts, 2, &call, seen, 8));
  row("where its first load is", 1, seen[0].stretch == 0 && seen[0].word == 1 && seen[0].value == words[0]);
  row("where its second load is", 1, seen[1].stretch == 1 && seen[1].word == 3 && seen[1].value == words[1]);
  row("null loads", TD_POINTER, td_validate_loads(s, words, 8, &call, 0, 1));
}

/* Each answer of a wrong use leaves the call as it was. */
static void unchanged(const td_call *call, const td_call *before) { row("and the call is as before", 1, !memcmp(call, before, sizeof *call)); }

static void stretches(td_session *s, uint32_t entry) {
  static const td_stretch long_ones[2] = {{0, 0xffffffff}, {0, 1}}, far[1] = {{60, 5}};
  td_call call = asked(entry), before = call;
  row("more stretches than a message has", TD_TOO_MUCH, td_validate_parts(s, words, 8, many, 65, &call));
  unchanged(&call, &before);
  row("stretches of 2^32 bytes", TD_TOO_MUCH, td_validate_parts(s, words, 8, long_ones, 2, &call));
  row("a stretch that ends after the words", TD_PAST, td_validate_parts(s, words, 8, far, 1, &call));
  unchanged(&call, &before);
}

/* Type and length in one array, what follows in another; and pieces that are no message. */
static void pieces(td_session *s, uint32_t entry) {
  static td_piece many_pieces[1025];
  uint64_t head[2] = {0, words[0]}, tail[6] = {0, words[1]};
  td_load seen[8] = {{9, 9, 9}}, none = {0, 0, 0};
  td_call call = asked(entry);
  td_piece two[2] = {{head, 8, 8}, {tail, 8, 40}}, long_ones[2] = {{head, 0, 0xffffffff}, {head, 0, 1}};
  row("a message in two pieces", TD_ACCEPTED, td_validate_pieces_loads(s, two, 2, &call, seen, 8));
  row("where its first load is", 1, seen[0].stretch == 0 && seen[0].word == 1 && seen[0].value == words[0]);
  row("where its second load is", 1, seen[1].stretch == 1 && seen[1].word == 1 && seen[1].value == words[1]);
  call = asked(entry);
  td_call before = call;
  row("more pieces than a message has", TD_TOO_MUCH, td_validate_pieces(s, many_pieces, 1025, &call));
  unchanged(&call, &before);
  row("pieces of 2^32 bytes", TD_TOO_MUCH, td_validate_pieces(s, long_ones, 2, &call));
  td_c_piece far[2] = {{{head, 2}, 2, 8, 8}, {{tail, 6}, 6, 16, 40}};
  row("a piece that ends after its words", TD_PAST, td_c_validate_pieces(s, s->full, &call, far, 2, &none, 0));
  unchanged(&call, &before);
  row("and the pieces are as before", 1, far[0].words.at == head && far[1].words.at == tail && far[1].words.count == 6 && far[1].place == 16);
  td_piece uneven = {(const uint64_t *)(const void *)((const char *)head + 4), 0, 8}, null = {0, 0, 8};
  row("a piece whose words aren't aligned", TD_POINTER, td_validate_pieces(s, &uneven, 1, &call));
  row("a piece at null", TD_POINTER, td_validate_pieces(s, &null, 1, &call));
  row("null pieces", TD_POINTER, td_validate_pieces(s, 0, 1, &call));
  row("1,024 pieces without a byte", TD_REJECTED, td_validate_pieces(s, many_pieces, 1024, &call));
  row("room for as many pieces as a message has", TD_DONE, td_room(s, TD_MOST_PIECES));
  row("room for one more", TD_TOO_MUCH, td_room(s, TD_MOST_PIECES + 1));
  row("a message in pieces, in this room", TD_ACCEPTED, td_validate_pieces(s, two, 2, &call));
  td_session closed = {0};
  row("room of a closed handle", TD_CLOSED, td_room(&closed, TD_MOST_PIECES + 1));
  row("room of no handle", TD_POINTER, td_room(0, 1));
  row("a closed handle, and too many pieces", TD_CLOSED, td_validate_pieces(&closed, many_pieces, 1025, &call));
  td_piece here = td_piece_at((const char *)words + 3, 6);
  row("a piece at any byte", 1, here.words == words && here.place == 3 && here.size == 6);
}

static void wrong_uses(td_session *s, uint32_t entry) {
  td_session none = {0};
  td_call call = asked(entry);
  uint32_t number = 0;
  row("a closed handle", TD_CLOSED, td_validate(&none, words, 8, &call));
  row("a closed handle, and too many stretches", TD_CLOSED, td_validate_parts(&none, words, 8, many, 65, &call));
  row("no name of a closed handle", TD_CLOSED, td_entry(&none, "A", 1, &number));
  row("no other session of a closed handle", TD_CLOSED, td_again(&none, &(td_session){0}));
  row("no such entry point", TD_MISSING, td_entry(s, "NOWHERE", 7, &number));
  call.entry = 77;
  row("an entry point's number that the code hasn't", TD_MISSING, td_validate(s, words, 8, &call));
  call = asked(entry);
  call.arg_count = 0;
  row("too few arguments", TD_UNFIT, td_validate(s, words, 8, &call));
  td_call before = asked(entry);
  before.arg_count = 0;
  unchanged(&call, &before);
  call.arg_count = 17;
  row("more arguments than a call has room for", TD_UNFIT, td_validate(s, words, 8, &call));
  call = asked(entry);
  call.cell_count = 0xffffffff;
  row("more cells than a call has room for", TD_UNFIT, td_validate(s, words, 8, &call));
  call = asked(entry);
  call.args[0] = (uint64_t)1 << 32;
  row("an argument that is too wide", TD_UNFIT, td_validate(s, words, 8, &call));
  call = asked(entry);
  row("a message that is longer than the words", TD_PAST, td_validate(s, words, 5, &call));
  call.place = 0xffffffff;
  row("a message that begins after the words", TD_PAST, td_validate(s, words, 8, &call));
  call = asked(entry);
  row("no words, and a message", TD_PAST, td_validate(s, 0, 0, &call));
  row("null words", TD_POINTER, td_validate(s, 0, 8, &call));
  row("words that aren't aligned", TD_POINTER, td_validate(s, (const uint64_t *)((const char *)words + 4), 6, &call));
  row("a null call", TD_POINTER, td_validate(s, words, 8, 0));
  row("a null handle", TD_POINTER, td_validate(0, words, 8, &call));
  row("a null name", TD_POINTER, td_entry(s, 0, 0, &number));
  row("a session beside itself", TD_POINTER, td_again(s, s));
}

static void images(uint8_t *bytes, size_t size) {
  static td_session s; /* a handle keeps its slot, so handles are kept */
  td_fault fault = {0};
  row("a cut image", TD_I3, td_open(&s, bytes, size - 3, &fault));
  row("where it ends", (int32_t)(size - 3), (int32_t)fault.place);
  row("bytes behind an image", TD_I5, td_open(&s, bytes, size + 1, &fault));
  row("where they begin", (int32_t)size, (int32_t)fault.place);
  bytes[0] ^= 1;
  row("no image", TD_I1, td_open(&s, bytes, size, &fault));
  bytes[0] ^= 1;
  bytes[4] ^= 8;
  row("another version", TD_I2, td_open(&s, bytes, size, &fault));
  bytes[4] ^= 8;
  row("null bytes", TD_POINTER, td_open(&s, 0, size, &fault));
  row("an image", TD_DONE, td_open(&s, bytes, size, &fault));
  row("the image again, into the same handle", TD_DONE, td_open(&s, bytes, size, &fault));
  td_close(&s);
  td_close(&s);
  row("a handle that was closed twice", TD_CLOSED, td_entry(&s, "RNDIS", 5, &(uint32_t){0}));
  td_call call = asked(0);
  row("a handle that was closed, and too many stretches", TD_CLOSED, td_validate_parts(&s, words, 8, many, 65, &call));
  row("a closed handle that is opened again", TD_DONE, td_open(&s, bytes, size, &fault));
  td_close(&s);
}

int main(int argc, char **argv) {
  if (argc != 2) stop("usage: answers RNDIS_IMAGE", 0);
  static uint8_t bytes[1 << 22];
  size_t size = image_of(argv[1], bytes, sizeof bytes);
  static td_session s;
  open_image(&s, argv[1]);
  uint32_t entry = entry_of(&s, "RNDIS");
  tables(&s, entry);
  validations(&s, entry);
  loads(&s, entry);
  stretches(&s, entry);
  pieces(&s, entry);
  wrong_uses(&s, entry);
  images(bytes, size);
  td_close(&s);
  printf("wrong %d\n", wrong);
  return wrong != 0;
}
