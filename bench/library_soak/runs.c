/* Opens images and validates messages that stand on standard input, as bench/library_soak/runs.py writes them, and answers each in a
   line. The words end at a page without rights, the call stands between words that have to stay, and a thread stores to the words
   without end where that is asked for. */
#define _GNU_SOURCE
#include "td.h"
#include <pthread.h>
#include <stdatomic.h>
#include <stdio.h>
#include <stdlib.h>
#include <string.h>
#include <sys/mman.h>

enum { PAGES = 64, PAGE = 4096, WORDS = PAGES * 512, ROWS = WORDS + 200, MOST_COPIED = 70000 };
static uint8_t *area;                   /* the words, between two pages without rights */
static _Atomic size_t stored_to;        /* how many words the other thread stores to; 0: none */
static _Atomic int is_over;
static td_session session;
static td_load *rows;
static uint8_t copied[MOST_COPIED + 1];

typedef struct { uint64_t before[4]; td_call call; uint64_t behind[4]; } guarded_call;

static void die(const char *why) {
  fprintf(stderr, "runs: %s\n", why);
  exit(3);
}

static void get(void *at, size_t size) {
  if (size && fread(at, 1, size, stdin) != size) die("short input");
}

static uint32_t u32(void) {
  uint32_t x;
  get(&x, 4);
  return x;
}

static uint64_t u64(void) {
  uint64_t x;
  get(&x, 8);
  return x;
}

static uint64_t *words_of(size_t count) { return (uint64_t *)(area + PAGES * PAGE) - count; }

static void *store_without_end(void *x) {
  uint64_t s = 88172645463325252u;
  while (!atomic_load(&is_over)) {
    size_t count = atomic_load(&stored_to);
    if (!count) continue;
    s ^= s << 13; s ^= s >> 7; s ^= s << 17;
    /* mostly small bytes, so that tests of fields are met now and then */
    uint64_t value = s >> 60 ? s & 0x0303030303030303u : s;
    __atomic_store_n(words_of(count) + s % count, value, __ATOMIC_SEQ_CST);
  }
  return x;
}

static void open_image(void) {
  uint32_t size = u32();
  uint8_t *image = malloc(size ? size : 1);
  get(image, size);
  td_fault fault = {77, 78};
  int32_t code = td_open(&session, image, size, &fault);
  memset(image, 0xff, size);
  free(image);
  printf("open %d %llu %u\n", code, (unsigned long long)fault.place, fault.rule);
}

/* Says what changed that has to stay. */
static void tell_changes(const guarded_call *now, const guarded_call *was, int32_t code) {
  if (memcmp(now->before, was->before, sizeof was->before) || memcmp(now->behind, was->behind, sizeof was->behind)) printf("BESIDE ");
  if (code != TD_ACCEPTED && code != TD_REJECTED) {
    if (memcmp(now, was, sizeof *was)) printf("CALL ");
    return;
  }
  uint32_t cells = was->call.cell_count;
  if (memcmp(now->call.args, was->call.args, sizeof was->call.args)) printf("ARGS ");
  if (memcmp(now->call.cells + cells, was->call.cells + cells, (64 - cells) * 8)) printf("CELLS ");
  if (now->call.unused != was->call.unused) printf("UNUSED ");
}

static void tell_copies(uint32_t entry) {
  td_entry_point point;
  if (td_describe(&session, entry, &point)) die("describe");
  for (uint64_t i = 0; i < point.buffer_count; i++) {
    td_buffer_part buffer;
    uint64_t size = 0;
    if (td_buffer(&session, entry, i, &buffer) || buffer.room > MOST_COPIED) die("buffer");
    memset(copied, 0x77, sizeof copied);
    if (td_copy(&session, i, copied, buffer.room, &size)) die("copy");
    if (size > buffer.room || copied[buffer.room] != 0x77) printf(" ROOM");
    printf(" b ");
    if (!size) printf("-");
    for (uint64_t k = 0; k < size && k < buffer.room; k++) printf("%02x", copied[k]);
  }
  /* what stands behind the entry point's own buffers */
  uint64_t size = 0;
  int32_t code = td_copy(&session, point.buffer_count, copied, 100, &size);
  printf(" behind %d %llu", code, code ? 0ull : (unsigned long long)size);
}

static void tell_run(const td_call *call, uint32_t room) {
  unsigned long long loads = call->load_count, steps = call->step_count;
  printf(" %u %u %llu %llu", call->position, call->reason, loads, steps);
  td_frame_row f;
  for (size_t i = 0; i < call->frame_count; i++) {
    if (td_frame(&session, i, &f)) die("frame");
    printf(" f %u %u %u %u %u", f.kind, f.spot, f.field, f.reason, f.start);
  }
  if (td_frame(&session, call->frame_count, &f) != TD_MISSING) printf(" FRAMES");
  for (uint32_t i = 0; i < call->cell_count; i++) printf(" c %llu", (unsigned long long)call->cells[i]);
  tell_copies(call->entry);
  for (uint64_t i = 0; i < loads && i < room; i++) printf(" l %u %u %llu", rows[i].stretch, rows[i].word, (unsigned long long)rows[i].value);
}

static void validate(void) {
  guarded_call g;
  memset(&g, 0xa5, sizeof g);
  g.call.entry = u32();
  g.call.place = u32();
  g.call.length = u32();
  g.call.arg_count = u32();
  g.call.cell_count = u32();
  uint32_t count = u32(), room = u32(), is_raced = u32(), part_count = u32();
  for (int i = 0; i < 16; i++) g.call.args[i] = u64();
  for (int i = 0; i < 64; i++) g.call.cells[i] = u64();
  td_stretch *parts = malloc((part_count + 1) * sizeof *parts);
  for (uint32_t i = 0; i < part_count; i++) {
    parts[i].place = u32();
    parts[i].size = u32();
  }
  uint64_t *words = words_of(count);
  for (uint32_t i = 0; i < count; i++) __atomic_store_n(words + i, u64(), __ATOMIC_SEQ_CST);
  guarded_call was = g;
  memset(rows, 0x5a, ROWS * sizeof *rows);
  atomic_store(&stored_to, is_raced ? count : 0);
  int32_t code = part_count ? td_validate_parts_loads(&session, words, count, parts, part_count, &g.call, rows, room)
                            : td_validate_loads(&session, words, count, &g.call, rows, room);
  atomic_store(&stored_to, 0);
  free(parts);
  tell_changes(&g, &was, code);
  int is_answered = code == TD_ACCEPTED || code == TD_REJECTED;
  uint64_t told = is_answered ? g.call.load_count : 0;
  td_load untouched;
  memset(&untouched, 0x5a, sizeof untouched);
  for (uint64_t i = told < room ? told : room; i < ROWS; i++)
    if (memcmp(&rows[i], &untouched, sizeof untouched)) {
      printf("ROWS ");
      break;
    }
  printf("%d", code);
  if (is_answered) tell_run(&g.call, room);
  printf("\n");
}

int main(void) {
  area = mmap(0, (PAGES + 2) * PAGE, PROT_NONE, MAP_PRIVATE | MAP_ANONYMOUS, -1, 0);
  if (area == MAP_FAILED) die("mmap");
  area += PAGE;
  if (mprotect(area, PAGES * PAGE, PROT_READ | PROT_WRITE)) die("mprotect");
  rows = malloc(ROWS * sizeof *rows);
  pthread_t other;
  if (!rows || pthread_create(&other, 0, store_without_end, 0)) die("start");
  for (uint32_t kind; fread(&kind, 1, 4, stdin) == 4; fflush(stdout)) {
    if (kind == 0) open_image();
    else if (kind == 1) validate();
    else die("kind");
  }
  atomic_store(&is_over, 1);
  pthread_join(other, 0);
  td_close(&session);
  free(rows);
  return 0;
}
