/* Validates one message by the library for C, in words at an address of their own that nobody stores to from then on, and prints
   the answer and the words that were told to be loaded: machine_loads IMAGE ENTRY PLACES ARGS HEX. PLACES is the message's first byte,
   or its stretches, as `4+3,16+8`, or with a / before them the same as pieces; ARGS are numbers with commas between, or `-`; HEX are the bytes of the
   words from the first on. */
#include "td.h"
#include <stdio.h>
#include <stdlib.h>
#include <string.h>
#include <sys/mman.h>

enum { AT_MOST = 1 << 20, WORDS = 512, PARTS = 64, ROWS = 4096 };
static uint8_t image[AT_MOST];
static td_load rows[ROWS];

#ifdef WRONG
/* A wrong library, to try the check on: linked with --wrap=td_c_validate, it is called in place of the export. */
int32_t __real_td_c_validate(td_session *s, bool full, td_call *call, td_words *words, size_t count, td_load *loads, size_t room);
int32_t __wrap_td_c_validate(td_session *s, bool full, td_call *call, td_words *words, size_t count, td_load *loads, size_t room);
int32_t __wrap_td_c_validate(td_session *s, bool full, td_call *call, td_words *words, size_t count, td_load *loads, size_t room) {
#if WRONG == 1 /* a word is loaded once more than is told */
  __atomic_load_n(words->at + call->place / 8, __ATOMIC_SEQ_CST);
  return __real_td_c_validate(s, full, call, words, count, loads, room);
#else /* the words are copied first */
  static uint64_t copy[WORDS];
  for (size_t i = 0; i < count; i++) copy[i] = __atomic_load_n(words->at + i, __ATOMIC_SEQ_CST);
  td_words copied = {copy, count};
  return __real_td_c_validate(s, full, call, &copied, count, loads, room);
#endif
}
#endif

/* The numbers of a list with commas between; how many they are. */
static size_t numbers(const char *text, uint64_t *at, size_t most) {
  size_t count = 0;
  for (char *end; *text && *text != '-' && count < most; text = *end ? end + 1 : end) at[count++] = strtoull(text, &end, 10);
  return count;
}

int main(int argc, char **argv) {
  if (argc != 6) return 2;
  FILE *file = fopen(argv[1], "rb");
  if (!file) return 3;
  size_t size = fread(image, 1, sizeof image, file);
  td_session s = {0};
  td_fault fault;
  if (td_open(&s, image, size, &fault)) return 4;
  td_call call = {0};
  if (td_entry(&s, argv[2], strlen(argv[2]), &call.entry)) return 5;
  td_entry_point point;
  if (td_describe(&s, call.entry, &point)) return 6;
  call.arg_count = (uint32_t)numbers(argv[4], call.args, 16);
  call.cell_count = (uint32_t)point.cell_count;
  uint64_t *words = mmap((void *)0x200000000000, 8 * WORDS, PROT_READ | PROT_WRITE, MAP_PRIVATE | MAP_ANONYMOUS | MAP_FIXED, -1, 0);
  if (words == MAP_FAILED) return 7;
  size_t length = strlen(argv[5]) / 2;
  if (length > 8 * WORDS) return 8;
  for (size_t i = 0; i < length; i++) {
    unsigned byte;
    sscanf(argv[5] + 2 * i, "%2x", &byte);
    ((uint8_t *)words)[i] = (uint8_t)byte;
  }
  if (mprotect(words, 8 * WORDS, PROT_READ)) return 9;
  int32_t answer;
  bool in_pieces = argv[3][0] == '/';
  td_stretch parts[PARTS];
  td_piece pieces[PARTS];
  if (strchr(argv[3], '+')) {
    size_t count = 0;
    for (char *text = strtok(argv[3] + in_pieces, ","); text && count < PARTS; text = strtok(0, ",")) {
      parts[count].place = (uint32_t)strtoul(text, &text, 10);
      parts[count++].size = (uint32_t)strtoul(text + 1, 0, 10);
    }
    for (size_t k = 0; k < count; k++) pieces[k] = td_piece_at((const uint8_t *)words + parts[k].place, parts[k].size);
    if (in_pieces) answer = td_validate_pieces_loads(&s, pieces, count, &call, rows, ROWS);
    else answer = td_validate_parts_loads(&s, words, WORDS, parts, count, &call, rows, ROWS);
  } else {
    call.place = (uint32_t)strtoul(argv[3], 0, 10);
    call.length = (uint32_t)length - call.place;
    answer = td_validate_loads(&s, words, WORDS, &call, rows, ROWS);
  }
  printf("answer %d loads %llu:", answer, (unsigned long long)call.load_count);
  for (uint64_t i = 0; i < call.load_count && i < ROWS; i++) {
    size_t from = in_pieces ? (size_t)(pieces[rows[i].stretch].words - words) : 0;
    printf(" %zu", from + rows[i].word);
  }
  printf("\n");
  td_close(&s);
  return 0;
}
