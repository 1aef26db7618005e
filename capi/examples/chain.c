/* A chain of descriptors, walked: chain WALKS. First each answer and each refusal once, a line each; then so many walks while another
   thread stores to table and buffers. The program brings a heap of its own, which counts blocks: each allocation of a walk is refused in
   turn, and nothing is left behind a walk. */
#include "td_chain.h"
#include "counting_heap.h"
#include <pthread.h>
#include <stdio.h>
#include <string.h>

/* The queue's table is at byte 0. The guest's memory has two regions with a hole between them: addresses 0x1000 to 0x17ff are bytes
   1,024 to 3,071 of the words, addresses 0x100000 to 0x107fff the bytes behind these. */
enum { ENTRIES = 16, WORDS = 4480, ROOM = 1100, NEXT = 1, WRITE = 2, INDIRECT = 4, LOW = 0x1000, HIGH = 0x100000 };
static uint64_t words[WORDS];
static const td_region regions[] = {{LOW, LOW + 2048, 1024}, {HIGH, HIGH + 32768, 3072}};
static const td_queue queue = {0, ENTRIES, true}, direct = {0, ENTRIES, false};
static td_chain_piece pieces[ROOM];
static td_load loads[4 * ROOM];
static td_chain_end end;
static int wrong;

static void row(const char *what, long wanted, long found) {
  printf("%s: %ld\n", what, found);
  if (wanted != found) {
    printf("  wanted %ld\n", wanted);
    wrong++;
  }
}

/* Descriptor n of the table that begins at this byte (2.7.5). */
static void describe_at(uint64_t table, unsigned n, uint64_t address, uint32_t size, unsigned flags, unsigned next) {
  uint64_t rest = size | (uint64_t)flags << 32 | (uint64_t)next << 48;
  memcpy((uint8_t *)words + table + 16 * n, &address, 8);
  memcpy((uint8_t *)words + table + 16 * n + 8, &rest, 8);
}

static void describe(unsigned n, uint64_t address, uint32_t size, unsigned flags, unsigned next) {
  describe_at(0, n, address, size, flags, next);
}

static int32_t walk(const td_queue *q, uint16_t head) {
  return td_walk_loads(words, WORDS, q, regions, 2, head, pieces, ROOM, loads, 4 * ROOM, &end);
}

static void refused(const char *what, uint32_t error, uint64_t count, uint32_t descriptor, bool is_indirect) {
  row(what, error, end.error);
  if (end.count != count || end.descriptor != descriptor || end.is_indirect != is_indirect) {
    printf("  after %lu pieces at descriptor %u, indirect %u\n", (unsigned long)end.count, end.descriptor, end.is_indirect);
    wrong++;
  }
}

static void chains(void) {
  describe(0, LOW, 16, NEXT, 2);
  describe(2, HIGH, 512, NEXT | WRITE, 5);
  describe(5, LOW + 2047, 1, WRITE, 0);
  row("a request in three buffers", TD_DONE, walk(&queue, 0));
  refused("whole", TD_CHAIN_WHOLE, 3, 0, false);
  row("the place of the second", 3072, (long)pieces[1].place);
  row("who writes it", 1, pieces[1].is_writable);
  row("how many loads", 6, (long)end.load_count);
  for (unsigned k = 0; k < 6; k++) wrong += loads[k].value != words[loads[k].word];
  pieces[1].size = 9;
  row("with room for one piece", TD_DONE, td_walk(words, WORDS, &queue, regions, 2, 0, pieces, 1, &end));
  row("how many pieces, in all", 3, (long)end.count);
  row("the row behind it", 9, pieces[1].size);
  describe_at(1024, 0, LOW + 16, 100, NEXT, 2);
  describe_at(1024, 2, HIGH, 4, WRITE, 0);
  describe(1, LOW, 48, INDIRECT, 0);
  row("an indirect table", TD_DONE, walk(&queue, 1));
  refused("whole", TD_CHAIN_WHOLE, 2, 0, false);
}

static void refusals(void) {
  walk(&queue, ENTRIES);
  refused("a head behind the table", TD_CHAIN_BEYOND, 0, ENTRIES, false);
  describe(3, LOW, 1, NEXT, ENTRIES);
  walk(&queue, 3);
  refused("a next behind the table", TD_CHAIN_BEYOND, 0, 3, false);
  describe(3, LOW + 2047, 2, 0, 0);
  walk(&queue, 3);
  refused("a buffer that ends in the hole", TD_CHAIN_OUTSIDE, 0, 3, false);
  walk(&direct, 1);
  refused("a table that wasn't negotiated", TD_CHAIN_NOT_ALLOWED, 0, 1, false);
  describe(3, LOW, 48, INDIRECT | NEXT, 0);
  walk(&queue, 3);
  refused("a table with a next", TD_CHAIN_WITH_NEXT, 0, 3, false);
  describe(3, LOW, 24, INDIRECT, 0);
  walk(&queue, 3);
  refused("a table of one descriptor and a half", TD_CHAIN_BAD_TABLE, 0, 3, false);
  describe_at(1024, 2, LOW, 16, INDIRECT, 0);
  walk(&queue, 1);
  refused("a table in a table", TD_CHAIN_NOT_ALLOWED, 1, 2, true);
  describe(3, LOW, 16, NEXT | WRITE, 4);
  describe(4, LOW, 16, 0, 0);
  walk(&queue, 3);
  refused("what is read behind what is written", TD_CHAIN_OUT_OF_ORDER, 1, 4, false);
  describe(3, HIGH, 16, NEXT, 3);
  walk(&queue, 3);
  refused("a chain that goes round", TD_CHAIN_TOO_LONG, ENTRIES + 1, 3, false);
  row("and is loaded once", 2, (long)end.load_count);
}

/* An indirect table of 1,024 buffers that begins at an odd byte. */
static void long_table(void) {
  const td_queue q = {0, 1024, true};
  for (unsigned n = 0; n < 1024; n++) describe_at(3072 + 1, n, LOW + n, 2, n < 1023 ? NEXT : 0, n + 1);
  describe(0, HIGH + 1, 16 * 1024, INDIRECT, 0);
  row("a table of 1,024 at an odd byte", TD_DONE, walk(&q, 0));
  refused("whole", TD_CHAIN_WHOLE, 1024, 0, false);
  row("how many loads", 2 + 2 * 1024 + 1, (long)end.load_count);
}

/* 4,097 buffers of 1 MiB, all of them the same, are more than 2^32 bytes. */
static void large(void) {
  enum { MANY = 4097, SIZE = 1 << 20 };
  const td_queue q = {0, 8192, false};
  const td_region whole = {0, SIZE, 0};
  uint64_t *table = calloc(SIZE / 8, 8);
  if (!table) exit(2);
  for (uint64_t n = 0; n < MANY; n++) table[2 * n + 1] = SIZE | (uint64_t)NEXT << 32 | (n + 1) << 48;
  row("2^32 bytes and more", TD_DONE, td_walk(table, SIZE / 8, &q, &whole, 1, 0, pieces, ROOM, &end));
  refused("too large", TD_CHAIN_TOO_LARGE, MANY - 1, MANY - 1, false);
  free(table);
}

static void uses(void) {
  const td_queue far = {8 * WORDS - 255, ENTRIES, true};
  row("a table that isn't within the words", TD_PAST, walk(&far, 0));
  const td_region past = {0, 8 * WORDS - 1023, 1024};
  row("a region that isn't within the words", TD_PAST, td_walk(words, WORDS, &queue, &past, 1, 0, pieces, ROOM, &end));
  row("words that aren't aligned", TD_POINTER,
      td_walk((const uint64_t *)(const void *)((const uint8_t *)words + 1), 8, &queue, regions, 2, 0, pieces, ROOM, &end));
  row("no queue", TD_POINTER, td_walk(words, WORDS, 0, regions, 2, 0, pieces, ROOM, &end));
  long before = allocations, held = blocks;
  row("a walk", TD_DONE, walk(&queue, 1));
  row("and its lists", 2, allocations - before);
  for (long k = 1; k <= 2; k++) {
    refused_at = allocations + k;
    end.count = 7;
    row("an allocation that is refused", TD_NO_MEMORY, walk(&queue, 1));
    row("the end is as before", 7, (long)end.count);
  }
  refused_at = 0;
  row("blocks that are left", 0, blocks - held);
}

static _Atomic int is_over;

static void *store_without_end(void *x) {
  uint64_t n = 1;
  while (!is_over) {
    n = n * 6364136223846793005u + 1442695040888963407u;
    uint64_t word = (n >> 33) % (2 * ENTRIES), address = n >> 20 & 1 ? LOW + (n >> 40) % 2100 : HIGH + (n >> 40) % 33000;
    uint64_t rest = (n >> 50) % 600 | (n >> 17 & 7) << 32 | (n >> 24) % (ENTRIES + 1) << 48;
    __atomic_store_n(&words[word], word % 2 ? rest : address, __ATOMIC_RELAXED);
  }
  return x;
}

/* Whether bytes of the words are all of one region. */
static bool is_of_a_region(uint64_t place, uint64_t size) {
  for (unsigned r = 0; r < 2; r++)
    if (place >= regions[r].place && place + size <= regions[r].place + (regions[r].until - regions[r].from)) return true;
  return false;
}

static void beside_stores(long walks) {
  pthread_t other;
  unsigned long by_error[9] = {0}, outside = 0, twice = 0;
  if (pthread_create(&other, 0, store_without_end, 0)) exit(2);
  for (long n = 0; n < walks; n++) {
    if (walk(&queue, (uint16_t)(n % ENTRIES)) != TD_DONE || end.error > TD_CHAIN_TOO_LONG) { wrong++; break; }
    by_error[end.error]++;
    for (uint64_t k = 0; k < end.count; k++) outside += !is_of_a_region(pieces[k].place, pieces[k].size);
    for (uint64_t k = 0; k < end.load_count; k++)
      for (uint64_t i = 0; i < k; i++) twice += loads[i].word == loads[k].word;
  }
  is_over = 1;
  pthread_join(other, 0);
  printf("walks by error");
  for (unsigned k = 0; k < 9; k++) printf(" %lu", by_error[k]);
  printf("\npieces outside %lu, words loaded twice %lu\n", outside, twice);
  wrong += outside || twice || !by_error[TD_CHAIN_WHOLE] || (unsigned long)walks == by_error[TD_CHAIN_WHOLE];
}

int main(int argc, char **argv) {
  if (argc != 2) return 2;
  chains();
  refusals();
  long_table();
  large();
  uses();
  beside_stores(atol(argv[1]));
  printf("wrong %d\n", wrong);
  return wrong != 0;
}
