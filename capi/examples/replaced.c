/* A validator is replaced while threads validate: replaced MESSAGES IMAGE.. Code n accepts a message of 8 bytes just where its first four are n.
   Four threads validate, each with a seat and a session for each code, opened before; one thread stores the messages, and one publishes code
   after code. Each answer is that of the code whose number the seat loaded, on the word that was loaded. */
#include "common.h"
#include <pthread.h>
#include <stdatomic.h>

enum { WORKERS = 4, MOST_CODES = 17 };
static _Atomic uint64_t words[1];
static _Atomic int is_over;
static _Atomic unsigned long done;
static unsigned long messages;
static uint32_t code_count;

typedef struct {
  td_seat seat;
  td_session sessions[MOST_CODES];
  uint32_t first, last;
  unsigned long seen[2], wrong;
} worker;

static void must(const char *what, int32_t code) {
  if (code) stop(what, code);
}

static void *store_without_end(void *x) {
  for (uint64_t n = 0; !atomic_load(&is_over); n++) atomic_store_explicit(&words[0], n % code_count | n << 32, memory_order_relaxed);
  return x;
}

static void *work(void *x) {
  worker *w = x;
  for (unsigned long i = 0; i < messages; i++) {
    uint32_t number = 0;
    must("td_seat_current", td_seat_current(&w->seat, &number));
    if (i == 0) w->first = number;
    w->wrong += number < w->last || number >= code_count;
    w->last = number;
    td_call call = {.length = 8};
    td_load load = {0, 0, 0};
    int32_t code = td_validate_loads(&w->sessions[number], (const uint64_t *)words, 1, &call, &load, 1);
    if (code != TD_ACCEPTED && code != TD_REJECTED) stop("td_validate_loads", code);
    w->seen[code]++;
    w->wrong += call.load_count != 1 || (code == TD_ACCEPTED) != ((uint32_t)load.value == number);
    atomic_fetch_add(&done, 1);
  }
  return 0;
}

static void *publish(void *x) {
  td_codes *codes = x;
  uint32_t number = 0;
  /* One code after the other, spread over all messages. */
  for (uint32_t next = 1; next < code_count; next++) {
    while (atomic_load(&done) < WORKERS * messages / code_count * next) sched_yield();
    must("td_codes_publish", td_codes_publish(codes, &number));
    if (number != next) stop("the number that was published", (long)number);
  }
  if (td_codes_publish(codes, &number) != TD_MISSING) stop("a code too many is published", 0);
  return 0;
}

static void open_codes(td_codes *codes, char **images) {
  static uint8_t bytes[1 << 22];
  td_fault fault = {0, 0};
  must("td_codes_open", td_codes_open(codes));
  if (td_codes_begin(codes) != TD_MISSING) stop("codes begin without one", 0);
  for (uint32_t i = 0; i < code_count; i++) must(images[i], td_codes_add(codes, bytes, image_of(images[i], bytes, sizeof bytes), &fault));
  if (td_codes_add(codes, "TD", 2, &fault) != (code_count == MOST_CODES ? TD_TOO_MUCH : TD_I1)) stop("what is no code is added", 0);
  must("td_codes_begin", td_codes_begin(codes));
  if (td_codes_begin(codes) != TD_CLOSED) stop("codes begin twice", 0);
}

static void open_worker(td_codes *codes, worker *w) {
  must("td_codes_seat", td_codes_seat(codes, &w->seat));
  for (uint32_t i = 0; i < code_count; i++) must("td_seat_session", td_seat_session(&w->seat, i, &w->sessions[i]));
  if (td_seat_session(&w->seat, code_count, &w->sessions[0]) != TD_MISSING) stop("a session by a code that isn't there", 0);
}

static void close_worker(worker *w) {
  for (uint32_t i = 0; i < code_count; i++) td_close(&w->sessions[i]);
  td_seat_close(&w->seat);
}

int main(int argc, char **argv) {
  if (argc < 3 || argc > 2 + MOST_CODES) stop("usage: replaced MESSAGES IMAGE..", 0);
  messages = strtoul(argv[1], 0, 10);
  code_count = (uint32_t)argc - 2;
  static td_codes codes;
  static worker workers[WORKERS];
  pthread_t threads[WORKERS], others[2];
  open_codes(&codes, argv + 2);
  for (int i = 0; i < WORKERS; i++) open_worker(&codes, &workers[i]);
  if (pthread_create(&others[0], 0, store_without_end, 0) || pthread_create(&others[1], 0, publish, &codes)) stop("pthread_create", 0);
  for (int i = 0; i < WORKERS; i++)
    if (pthread_create(&threads[i], 0, work, &workers[i])) stop("pthread_create", i);
  for (int i = 0; i < WORKERS; i++) pthread_join(threads[i], 0);
  pthread_join(others[1], 0);
  atomic_store(&is_over, 1);
  pthread_join(others[0], 0);
  td_codes_close(&codes); /* the seats stay */
  unsigned long seen[2] = {0}, wrong = 0;
  for (int i = 0; i < WORKERS; i++) {
    uint32_t number = 0;
    must("td_seat_current", td_seat_current(&workers[i].seat, &number));
    wrong += number != code_count - 1;
    seen[0] += workers[i].seen[0];
    seen[1] += workers[i].seen[1];
    wrong += workers[i].wrong;
    close_worker(&workers[i]);
  }
  printf("codes %u accepted %lu rejected %lu wrong %lu\n", code_count, seen[0], seen[1], wrong);
  return wrong != 0;
}
