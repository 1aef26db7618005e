/* What the programs of this folder share: an image from a file, and a name as a string. */
#ifndef COMMON_H
#define COMMON_H
#include "td.h"
#include <stdio.h>
#include <stdlib.h>
#include <string.h>

static inline void stop(const char *what, long code) {
  fprintf(stderr, "%s: %ld\n", what, code);
  exit(2);
}

static inline size_t image_of(const char *path, uint8_t *bytes, size_t room) {
  FILE *file = fopen(path, "rb");
  if (!file) stop(path, 0);
  size_t size = fread(bytes, 1, room, file);
  if (ferror(file) || size == room) stop("the image is too large", (long)size);
  fclose(file);
  return size;
}

static inline void open_image(td_session *s, const char *path) {
  static uint8_t bytes[1 << 22];
  td_fault fault = {0};
  int32_t code = td_open(s, bytes, image_of(path, bytes, sizeof bytes), &fault);
  if (code) stop(path, code);
}

static inline uint32_t entry_of(td_session *s, const char *name) {
  uint32_t number = 0;
  int32_t code = td_entry(s, name, strlen(name), &number);
  if (code) stop(name, code);
  return number;
}

/* A name as a string, in room that the next but seven calls use again. */
static inline const char *name_of(td_session *s, uint32_t number) {
  static char rooms[8][256];
  static unsigned next;
  char *room = rooms[next++ % 8];
  uint64_t size = 0;
  int32_t code = td_name(s, number, room, sizeof rooms[0] - 1, &size);
  if (code) stop("td_name", code);
  room[size < sizeof rooms[0] - 1 ? size : sizeof rooms[0] - 1] = 0;
  return room;
}
#endif
