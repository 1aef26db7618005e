/* One code, a session for each thread: four threads validate the same words, to which another one keeps storing.
   threads RNDIS_IMAGE MESSAGES. */
#include "common.h"
#include <pthread.h>
#include <stdatomic.h>

enum { WORKERS = 4, WORDS = 64 };
static _Atomic uint64_t words[WORDS];
static _Atomic int is_over;
static long messages;

typedef struct {
  td_session session;
  uint32_t entry;
  unsigned long seen[2], wrong;
} worker;

static void *store_without_end(void *x) {
  for (uint64_t n = 0; !atomic_load(&is_over); n++) {
    atomic_store_explicit(&words[0], (n & 1 ? 7 : 1) | (uint64_t)512 << 32, memory_order_relaxed);
    atomic_store_explicit(&words[1], 36 | (468 + (n & 3)) << 32, memory_order_relaxed);
  }
  return x;
}

static void *work(void *x) {
  worker *w = x;
  td_call call = {0};
  for (long i = 0; i < messages; i++) {
    call.entry = w->entry;
    call.length = 512;
    call.arg_count = 1;
    call.args[0] = 512;
    call.cell_count = 5;
    memset(call.cells, 0, 5 * sizeof(uint64_t));
    int32_t code = td_validate(&w->session, (const uint64_t *)words, WORDS, &call);
    if (code != TD_ACCEPTED && code != TD_REJECTED) stop("td_validate", code);
    w->seen[code]++;
    w->wrong += code == TD_ACCEPTED && call.cells[3] + call.cells[4] > 512;
  }
  td_close(&w->session);
  return 0;
}

int main(int argc, char **argv) {
  if (argc != 3) stop("usage: threads RNDIS_IMAGE MESSAGES", 0);
  messages = atol(argv[2]);
  static worker workers[WORKERS];
  pthread_t threads[WORKERS], other;
  open_image(&workers[0].session, argv[1]);
  for (int i = 1; i < WORKERS; i++) {
    int32_t code = td_again(&workers[0].session, &workers[i].session);
    if (code) stop("td_again", code);
  }
  for (int i = 0; i < WORKERS; i++) workers[i].entry = entry_of(&workers[i].session, "RNDIS");
  if (pthread_create(&other, 0, store_without_end, 0)) stop("pthread_create", 0);
  for (int i = 0; i < WORKERS; i++)
    if (pthread_create(&threads[i], 0, work, &workers[i])) stop("pthread_create", i);
  for (int i = 0; i < WORKERS; i++) pthread_join(threads[i], 0);
  atomic_store(&is_over, 1);
  pthread_join(other, 0);
  unsigned long seen[2] = {0}, wrong = 0;
  for (int i = 0; i < WORKERS; i++) {
    seen[0] += workers[i].seen[0];
    seen[1] += workers[i].seen[1];
    wrong += workers[i].wrong;
  }
  printf("threads %d accepted %lu rejected %lu wrong %lu\n", WORKERS, seen[0], seen[1], wrong);
  return wrong != 0;
}
