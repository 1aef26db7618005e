/* Opens each image of standard input (its size in four bytes, and its bytes), looks everything up in it, runs each of its entry
   points, and answers in a line what td_open answered. */
#include "td.h"
#include <stdio.h>
#include <stdlib.h>
#include <string.h>

enum { MOST_ENTRIES = 40, MOST_RUN = 20000, WORDS = 64 };
static uint64_t words[WORDS];

static void look_up(td_session *s, uint32_t entry, const td_entry_point *point, int is_run) {
  if (point->param_count > 16 || point->cell_count > 64 || point->unused) printf("COUNTS ");
  td_part part;
  td_buffer_part buffer;
  for (size_t i = 0; i < point->param_count; i++) if (td_param(s, entry, i, &part)) printf("PARAM ");
  for (size_t i = 0; i < point->cell_count; i++) if (td_cell(s, entry, i, &part)) printf("CELL ");
  for (size_t i = 0; i < point->buffer_count; i++) if (td_buffer(s, entry, i, &buffer)) printf("BUFFER ");
  char name[20];
  uint64_t size;
  if (td_name(s, point->name, name, sizeof name, &size)) printf("NAME ");
  if (!is_run) return;
  td_call call = {.entry = entry, .length = 300, .place = entry % 8};
  call.arg_count = (uint32_t)point->param_count;
  call.cell_count = (uint32_t)point->cell_count;
  int32_t code = td_validate(s, words, WORDS, &call);
  if (code != TD_ACCEPTED && code != TD_REJECTED) printf("VALIDATE ");
}

int main(void) {
  for (int i = 0; i < WORDS; i++) words[i] = 0x0101010101010101u * (uint64_t)(i % 3);
  for (uint32_t size; fread(&size, 1, 4, stdin) == 4;) {
    uint8_t *image = malloc(size ? size : 1);
    if (!image || (size && fread(image, 1, size, stdin) != size)) return 3;
    td_session s = {0}, other = {0};
    td_fault fault = {0, 0};
    int32_t code = td_open(&s, image, size, &fault);
    memset(image, 0, size);
    free(image);
    td_entry_point point;
    /* (a large image may have code of very many steps: it is not run) */
    for (uint32_t entry = 0; code == TD_DONE && entry <= MOST_ENTRIES && !td_describe(&s, entry, &point); entry++)
      look_up(&s, entry, &point, size < MOST_RUN);
    if (code == TD_DONE && td_again(&s, &other)) printf("AGAIN ");
    printf("%d %llu %u\n", code, (unsigned long long)fault.place, fault.rule);
    td_close(&other);
    td_close(&s);
  }
  return 0;
}
