/* Threads that open, share, close, validate, look up and ask seats in every order, by codes that are published meanwhile, with
   allocations refused now and then: handles SECONDS EACH IMAGE... One allocation in EACH is refused (0: none). The image of number n is of
   a module that accepts eight bytes just where the first four are n. Prints counts; the status is 1 where an answer was wrong. */
#define _GNU_SOURCE
#include "td.h"
#include <pthread.h>
#include <stdatomic.h>
#include <stdio.h>
#include <stdlib.h>
#include <string.h>
#include <time.h>

typedef struct { uint64_t is_ok; void *at; } td_block;
enum { THREADS = 6, SLOTS = 5, MOST = 17, ROOM = 1 << 16, WORDS = 8 };
static int each;
static _Thread_local uint64_t state = 1;
static char nothing;
static uint8_t *image[MOST];
static size_t image_size[MOST];
static int images;
static _Atomic long blocks, refused, calls, wrong;
static _Atomic int is_over;
static _Atomic uint64_t words[WORDS];
static td_codes codes;
static td_seat first_seat[THREADS];
static td_session first[THREADS];

#define EXPECT(x) do { if (!(x)) { wrong++; fprintf(stderr, "handles: wrong at line %d\n", __LINE__); } } while (0)

static uint64_t draw(void) {
  state ^= state << 13; state ^= state >> 7; state ^= state << 17;
  return state;
}

/* The allocator of the library (capi/heap.c), which refuses. */
static int is_refused(void) {
  if (!each || draw() % (uint64_t)each) return 0;
  refused++;
  return 1;
}

static td_block block_of(void *at) { return at ? (td_block){1, at} : (td_block){0, &nothing}; }

td_block rattle_alloc(size_t size, size_t align) {
  void *at = is_refused() ? 0 : malloc(size ? size : align);
  blocks += at != 0;
  return block_of(at);
}

td_block rattle_realloc(void *at, size_t before, size_t size, size_t align) {
  (void)before;
  return block_of(is_refused() ? 0 : realloc(at, size ? size : align));
}

void rattle_dealloc(void *at, size_t size) {
  (void)size;
  blocks--;
  free(at);
}

static int is_one_of(int32_t code, int a, int b, int c, int d) { return code == a || code == b || code == c || code == d; }

/* Asks a seat, opens a session by the number that it told, and validates a word by it. */
static void ask(td_seat *seat, uint32_t *last, td_session *s) {
  uint32_t number = 99;
  EXPECT(td_seat_current(seat, &number) == TD_DONE && number >= *last && number < (uint32_t)images);
  *last = number;
  int32_t code = td_seat_session(seat, number, s);
  EXPECT(code == TD_DONE || code == TD_NO_MEMORY);
  if (code != TD_DONE) return;
  td_call call = {.length = 8};
  td_load load;
  code = td_validate_loads(s, (const uint64_t *)words, 1, &call, &load, 1);
  EXPECT(code == TD_ACCEPTED || code == TD_REJECTED);
  EXPECT((code == TD_ACCEPTED) == ((uint32_t)load.value == number) && call.load_count == 1);
}

static void validate_stretches(td_session *s) {
  td_stretch parts[3] = {{4, 4}, {0, 3}, {8, 1}};
  td_call call = {0};
  td_load loads[4];
  int32_t code = td_validate_parts_loads(s, (const uint64_t *)words, WORDS, parts, 3, &call, loads, 4);
  EXPECT(code == TD_REJECTED || is_one_of(code, TD_ACCEPTED, TD_CLOSED, TD_NO_MEMORY, TD_CLOSED));
  if (code == TD_ACCEPTED || code == TD_REJECTED) EXPECT(call.load_count >= 1 && call.load_count <= 2);
}

static void look_up(td_session *s) {
  uint64_t size = 0;
  char name[4];
  EXPECT(is_one_of(td_name(s, draw() % 6, name, draw() % 5, &size), TD_DONE, TD_CLOSED, TD_MISSING, TD_DONE));
  td_frame_row row;
  EXPECT(is_one_of(td_frame(s, draw() % 3, &row), TD_DONE, TD_CLOSED, TD_MISSING, TD_DONE));
}

static void validate_one(td_session *s) {
  td_call call = {.length = (uint32_t)(draw() % 9), .entry = (uint32_t)(draw() % 2)};
  EXPECT(is_one_of(td_validate(s, (const uint64_t *)words, draw() % 2 + 1, &call), TD_ACCEPTED, TD_REJECTED, TD_CLOSED, TD_MISSING));
}

static void *work(void *x) {
  int me = (int)(intptr_t)x;
  state = 977 * (uint64_t)(me + 1);
  td_session s[SLOTS] = {first[me]};
  td_seat seat = first_seat[me];
  for (uint32_t last = 0; !atomic_load(&is_over); calls++) {
    td_session *one = &s[draw() % SLOTS], *other = &s[draw() % SLOTS];
    int number = (int)(draw() % (uint64_t)images);
    td_fault fault = {9, 9};
    switch (draw() % 8) {
      case 0: EXPECT(is_one_of(td_open(one, image[number], image_size[number], &fault), TD_DONE, TD_NO_MEMORY, TD_DONE, TD_DONE));
              EXPECT(fault.place == 9 && fault.rule == 9); break;
      case 1: { int32_t code = td_again(one, other);
                EXPECT(one == other ? code == TD_POINTER : is_one_of(code, TD_DONE, TD_CLOSED, TD_NO_MEMORY, TD_DONE)); break; }
      case 2: if (draw() % 4 == 0) td_close(one); break;
      case 3: ask(&seat, &last, one); break;
      case 4: EXPECT(td_seat_session(&seat, (uint32_t)images + 3, one) == TD_MISSING); break;
      case 5: validate_stretches(one); break;
      case 6: look_up(one); break;
      default: validate_one(one);
    }
  }
  for (int i = 0; i < SLOTS; i++) td_close(&s[i]);
  td_seat_close(&seat);
  return 0;
}

static void *store_without_end(void *x) {
  state = 5;
  while (!atomic_load(&is_over)) atomic_store(&words[draw() % WORDS], draw() % (uint64_t)(images + 1));
  return x;
}

static void read_images(int count, char **paths) {
  for (; images < count && images < MOST; images++) {
    FILE *file = fopen(paths[images], "rb");
    image[images] = malloc(ROOM);
    if (!file || !image[images]) exit(3);
    image_size[images] = fread(image[images], 1, ROOM, file);
    fclose(file);
  }
}

/* All codes, a session and a seat for each thread; nothing is refused yet. */
static void begin(void) {
  td_fault fault;
  td_session s = {0};
  EXPECT(td_open(&s, image[0], image_size[0], &fault) == TD_DONE);
  EXPECT(td_codes_open(&codes) == TD_DONE);
  for (int i = 0; i < images; i++) EXPECT(td_codes_add(&codes, image[i], image_size[i], &fault) == TD_DONE);
  EXPECT(td_codes_begin(&codes) == TD_DONE);
  for (int i = 0; i < THREADS; i++) {
    EXPECT(td_again(&s, &first[i]) == TD_DONE);
    EXPECT(td_codes_seat(&codes, &first_seat[i]) == TD_DONE);
  }
  td_close(&s);
}

int main(int argc, char **argv) {
  if (argc < 5) return 2;
  read_images(argc - 3, argv + 3);
  begin();
  each = atoi(argv[2]);
  pthread_t workers[THREADS], storer;
  pthread_create(&storer, 0, store_without_end, 0);
  for (int i = 0; i < THREADS; i++) pthread_create(&workers[i], 0, work, (void *)(intptr_t)i);
  struct timespec pause = {0, 50000000};
  time_t end = time(0) + atoi(argv[1]);
  state = 3;
  for (int is_closed = 0; time(0) < end;) {
    nanosleep(&pause, 0);
    uint32_t number = 0;
    int32_t code = td_codes_publish(&codes, &number);
    EXPECT(code == (is_closed ? TD_CLOSED : TD_DONE) || (!is_closed && code == TD_MISSING));
    /* the seats go on once who publishes is gone */
    if (code == TD_MISSING) {
      td_codes_close(&codes);
      is_closed = 1;
    }
  }
  atomic_store(&is_over, 1);
  for (int i = 0; i < THREADS; i++) pthread_join(workers[i], 0);
  pthread_join(storer, 0);
  td_codes_close(&codes);
  printf("calls %ld refused %ld blocks %ld wrong %ld\n", (long)calls, (long)refused, (long)blocks, (long)wrong);
  return wrong != 0;
}
