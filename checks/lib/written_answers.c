/* Answers each line of its input, the digits of an image, by td_write_c: `ok` if the three files of its C are written, `none` if it has no entry
   point, or why it isn't read, as td_try_code says it. A file has no byte behind it, and one byte less is no room for it. */
#include "td_pack.h"
#include <stdio.h>
#include <stdlib.h>
#include <string.h>

enum { CANARY = 0x5A };

static int digit(char c) { return c <= '9' ? c - '0' : c - 'a' + 10; }

/* Why an image is refused, or what else is wrong. */
static void tell(int32_t code, const td_written *told) {
  if (code == TD_PACK_NO_ENTRY) puts("none");
  else if (code != TD_PACK_REFUSED) printf("answer %d\n", code);
  else if (told->fault < 3) printf("I%u\n", told->fault);
  else if (told->fault < 6) printf("I%u at %llu\n", told->fault, (unsigned long long)told->place);
  else printf("I6 V%u at %llu\n", told->rule, (unsigned long long)told->place);
}

/* Whether a file is written into its own room and no other byte, and not where there is one byte less. */
static int is_written(const uint8_t *image, size_t count, td_c_file which, size_t size) {
  td_written told = {0, 7, 7, 7};
  uint8_t *room = malloc(size + 1);
  int is_good = room != 0;
  if (is_good) memset(room, CANARY, size + 1);
  is_good = is_good && td_write_c(image, count, which, "x", room, size - 1, &told) == TD_PACK_NO_ROOM && room[0] == CANARY && told.size == size;
  is_good = is_good && td_write_c(image, count, which, "x", room, size + 1, &told) == TD_PACKED && told.size == size;
  is_good = is_good && room[size] == CANARY && room[size - 1] == '\n' && told.place == 7 && told.fault == 7 && told.rule == 7;
  free(room);
  return is_good;
}

static void answer(const uint8_t *image, size_t count) {
  for (int which = TD_C_SOURCE; which <= TD_C_PARTS; which++) {
    td_written told = {0};
    int32_t code = td_write_c(image, count, (td_c_file)which, "x", 0, 0, &told);
    if (code != TD_PACK_NO_ROOM) {
      tell(code, &told);
      return;
    }
    if (!is_written(image, count, (td_c_file)which, told.size)) {
      printf("file %d isn't written as it has to be\n", which);
      return;
    }
  }
  puts("ok");
}

int main(void) {
  char *line = 0;
  size_t room = 0;
  ssize_t size;
  while ((size = getline(&line, &room, stdin)) > 0) {
    size_t count = (size_t)size / 2;
    uint8_t *image = malloc(count + 1);
    if (!image) return 2;
    for (size_t i = 0; i < count; i++) image[i] = (uint8_t)(16 * digit(line[2 * i]) + digit(line[2 * i + 1]));
    answer(image, count);
    free(image);
  }
  free(line);
  return 0;
}
