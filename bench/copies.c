/* A message of 1 MiB, all of which is copied: what bench/copies builds and runs.
 *
 *     copies IMAGE ROUNDS
 *
 * An entry point COPIES has sixteen copy buffers of 65,536 bytes, filled one after the other by the message. Each round validates the message once by the
 * C that tdc writes, once by the library with IMAGE (unless it is compiled with WITHOUT_LIBRARY), and once loads its words by hand and puts them into
 * buffers. The line tells for each the least nanoseconds of a byte. Before that the copies are compared with the message.
 */
#include "copies_text.h"
#include <stdio.h>
#include <stdlib.h>
#include <string.h>
#include <time.h>
#ifndef WITHOUT_LIBRARY
#include "td.h"
#endif

enum { BUFFERS = 16, ROOM = 65536, BYTES = BUFFERS * ROOM, MOST_IMAGE = 1 << 20, WAYS = 3 };

static uint64_t words[BYTES / 8];
static uint8_t copies[BUFFERS][ROOM];
/* The records of the sixteen buffers have the same members. */
static struct copies_text_COPIES_b0 own[BUFFERS];

static void stop(const char *what, long code) {
  fprintf(stderr, "copies: %s: %ld\n", what, code);
  exit(2);
}

static double now(void) {
  struct timespec t;
  clock_gettime(CLOCK_PROCESS_CPUTIME_ID, &t);
  return (double)t.tv_sec * 1e9 + (double)t.tv_nsec;
}

#define BUFFER(K) (struct copies_text_COPIES_b##K *)(void *)&own[K]

static void by_written_c(void) {
  struct td_outcome outcome;
  bool accepted = copies_text_validate_COPIES(words, BYTES, BUFFER(0), BUFFER(1), BUFFER(2), BUFFER(3), BUFFER(4), BUFFER(5), BUFFER(6), BUFFER(7), BUFFER(8),
                                              BUFFER(9), BUFFER(10), BUFFER(11), BUFFER(12), BUFFER(13), BUFFER(14), BUFFER(15), &outcome);
  if (!accepted) stop("rejected", (long)outcome.reason);
}

static void by_hand(void) {
  for (size_t i = 0; i < BYTES / 8; i++) {
    uint64_t word = __atomic_load_n(&words[i], __ATOMIC_ACQUIRE);
    memcpy(&copies[i / (ROOM / 8)][i % (ROOM / 8) * 8], &word, 8);
  }
}

static void compare(size_t k, const uint8_t *copy, uint64_t size) {
  if (size != ROOM || memcmp(copy, (const uint8_t *)words + k * ROOM, ROOM)) stop("another copy", (long)k);
}

#ifdef WITHOUT_LIBRARY
static void open_library(const char *path) { (void)path; }
static void by_library(void) {}
#else
static td_session session;
static uint32_t entry;

static void by_library(void) {
  static td_call call;
  call.entry = entry;
  call.length = BYTES;
  int32_t code = td_validate(&session, words, BYTES / 8, &call);
  if (code != TD_ACCEPTED) stop("td_validate", code);
  if (call.load_count != BYTES / 8) stop("loads", (long)call.load_count);
}

static void open_library(const char *path) {
  static uint8_t image[MOST_IMAGE];
  td_fault fault = {0, 0};
  FILE *file = fopen(path, "rb");
  if (!file) stop(path, 0);
  size_t size = fread(image, 1, sizeof image, file);
  fclose(file);
  int32_t code = td_open(&session, image, size, &fault);
  if (!code) code = td_entry(&session, "COPIES", 6, &entry);
  if (code) stop(path, code);
  by_library();
  for (size_t k = 0; k < BUFFERS; k++) {
    uint64_t copied = 0;
    code = td_copy(&session, k, copies[k], ROOM, &copied);
    if (code) stop("td_copy", code);
    compare(k, copies[k], copied);
  }
}
#endif

int main(int argc, char **argv) {
  static void (*const ways[WAYS])(void) = {by_hand, by_written_c, by_library};
  double least[WAYS] = {1e300, 1e300, 1e300};
  if (argc != 3) stop("usage: copies IMAGE ROUNDS", 0);
  for (size_t i = 0; i < BYTES / 8; i++) words[i] = i * UINT64_C(0x9e3779b97f4a7c15);
  open_library(argv[1]);
  by_written_c();
  for (size_t k = 0; k < BUFFERS; k++) compare(k, own[k].bytes, own[k].count);
  for (int round = 0; round < atoi(argv[2]); round++)
    for (int way = 0; way < WAYS; way++) {
      double begin = now();
      ways[way]();
      double end = now();
      if (end - begin < least[way]) least[way] = end - begin;
    }
  for (size_t k = 0; k < BUFFERS; k++) compare(k, copies[k], ROOM);
  printf("%.3f %.3f %.3f\n", least[0] / BYTES, least[1] / BYTES, least[2] / BYTES);
  return 0;
}
