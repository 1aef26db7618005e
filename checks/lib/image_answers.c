/* Answers each line of its input, the digits of an image, as td_try_code does, by the library for C: `ok`, or why it isn't read. */
#include "td.h"
#include <stdio.h>
#include <stdlib.h>
#include <string.h>

static int digit(char c) { return c <= '9' ? c - '0' : c - 'a' + 10; }

int main(void) {
  static td_session s;
  char *line = 0;
  size_t room = 0;
  ssize_t size;
  while ((size = getline(&line, &room, stdin)) > 0) {
    size_t count = (size_t)size / 2;
    uint8_t *image = malloc(count + 1);
    if (!image) return 2;
    for (size_t i = 0; i < count; i++) image[i] = (uint8_t)(16 * digit(line[2 * i]) + digit(line[2 * i + 1]));
    td_fault fault = {0, 0};
    int32_t code = td_open(&s, image, count, &fault);
    unsigned long long place = fault.place;
    if (code == TD_DONE) puts("ok");
    else if (code == TD_I1 || code == TD_I2) printf("I%d\n", code - 10);
    else if (code == TD_I6) printf("I6 V%u at %llu\n", fault.rule, place);
    else if (code > TD_I2 && code < TD_I6) printf("I%d at %llu\n", code - 10, place);
    else printf("answer %d\n", code);
    free(image);
  }
  td_close(&s);
  free(line);
  return 0;
}
