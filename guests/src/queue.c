#define _GNU_SOURCE
#include "queue.h"
#include <errno.h>
#include <fcntl.h>
#include <poll.h>
#include <sched.h>
#include <stdio.h>
#include <stdlib.h>
#include <string.h>
#include <sys/eventfd.h>
#include <sys/uio.h>
#include <unistd.h>

enum { T_IN = 0, T_OUT = 1, T_FLUSH = 4, T_GET_ID = 8, T_DISCARD = 11, T_WRITE_ZEROES = 13 };
enum { HEADER_BYTES = 16, ID_BYTES = 20, BATCH = 32 };

static void signal_to(int fd) {
  uint64_t one = 1;
  if (fd >= 0 && write(fd, &one, sizeof one) < 0 && errno != EAGAIN) perror("eventfd");
}

/* ---- the request ---- */

/* `size` bytes of a chain's buffers from one on, as the kernel takes them. -1: one isn't in the guest's memory. */
static int iovecs(const queue *q, const chain *ch, unsigned from, unsigned until, uint64_t skip, uint64_t size, struct iovec *out) {
  int n = 0;
  for (unsigned k = from; k < until && size; k++) {
    span s = ch->spans[k];
    if (skip >= s.length) { skip -= s.length; continue; }
    uint64_t take = s.length - skip;
    if (take > size) take = size;
    void *at = memory_at(q->dev->m, s.guest + skip, take);
    if (!at) return -1;
    out[n++] = (struct iovec){at, take};
    size -= take;
    skip = 0;
  }
  return size ? -1 : n;
}

/* Sectors from the disk to the guest's memory or back. That the chain has as many bytes was tested with its header. */
static int move(queue *q, const chain *ch, const header *h) {
  static _Thread_local struct iovec v[MOST_SPANS];
  uint64_t data = h->sectors * SECTOR;
  int n = h->type == T_IN ? iovecs(q, ch, ch->readable, ch->count, 0, data, v) : iovecs(q, ch, 0, ch->readable, HEADER_BYTES, data, v);
  if (n < 0) return S_IOERR;
  if (h->sector > q->dev->capacity || h->sectors > q->dev->capacity - h->sector) { q->t.beyond++; return S_IOERR; }
  off_t place = (off_t)h->sector * SECTOR;
  ssize_t done = !n ? 0 : h->type == T_IN ? preadv(q->dev->file, v, n, place) : pwritev(q->dev->file, v, n, place);
  if (done < 0 || (uint64_t)done != data) return S_IOERR;
  if (h->type == T_IN) q->t.read_bytes += data; else q->t.written_bytes += data;
  return S_OK;
}

/* Each segment is a message. All are validated before one is done. */
static int clear(queue *q, const chain *ch, uint32_t type) {
  segment s[MOST_SEGMENTS];
  uint64_t n = (ch->readable_bytes - HEADER_BYTES) / 16;
  if (n > MOST_SEGMENTS) return S_IOERR;
  for (uint64_t k = 0; k < n; k++)
    if (check_segment(&q->checker, ch, HEADER_BYTES + 16 * k, type, q->dev->capacity, MOST_SECTORS, &s[k]) == REFUSED)
      return S_IOERR;
  for (uint64_t k = 0; k < n; k++) {
    if (s[k].sector > q->dev->capacity || s[k].sectors > q->dev->capacity - s[k].sector) { q->t.beyond++; return S_IOERR; }
    off_t at = (off_t)s[k].sector * SECTOR, size = (off_t)s[k].sectors * SECTOR;
    if (size && fallocate(q->dev->file, FALLOC_FL_PUNCH_HOLE | FALLOC_FL_KEEP_SIZE, at, size) && type == T_WRITE_ZEROES)
      return S_IOERR;
  }
  return S_OK;
}

static void put_bytes(queue *q, const chain *ch, const uint8_t *bytes, uint64_t size) {
  struct iovec v[ID_BYTES];
  int n = iovecs(q, ch, ch->readable, ch->count, 0, size, v);
  for (int k = 0; k < n; k++)
    for (size_t i = 0; i < v[k].iov_len; i++) __atomic_store_n((uint8_t *)v[k].iov_base + i, *bytes++, __ATOMIC_RELAXED);
}

/* Serves a request. Gives how many bytes were written; 0 if the chain has no byte for the status. */
static uint32_t serve_request(queue *q, const chain *ch) {
  if (!ch->writable_bytes) { q->t.bad_walks++; return 0; }
  span last = ch->spans[ch->count - 1];
  for (unsigned k = ch->count; !last.length; k--) last = ch->spans[k - 1];
  int status = S_IOERR;
  uint64_t written = 1;
  header h;
  q->t.requests++;
  if (ch->readable_bytes >= HEADER_BYTES) {
    if (check_header(&q->checker, ch, q->dev->features, q->dev->capacity, &h) == REFUSED) {
      status = q->checker.is_unsupported ? S_UNSUPP : S_IOERR;
    } else {
      if (h.type < 16) q->t.by_type[h.type]++;
      switch (h.type) {
        case T_IN:
        case T_OUT:
          status = move(q, ch, &h);
          if (h.type == T_IN && status == S_OK) written += h.sectors * SECTOR;
          break;
        case T_FLUSH:
          status = fdatasync(q->dev->file) ? S_IOERR : S_OK;
          break;
        case T_GET_ID:
          put_bytes(q, ch, (const uint8_t *)"validated by td\0\0\0\0", ID_BYTES);
          status = S_OK;
          written += ID_BYTES;
          break;
        case T_DISCARD:
        case T_WRITE_ZEROES:
          status = clear(q, ch, h.type);
          break;
        default:
          status = S_UNSUPP;
      }
    }
  }
  uint8_t *at = memory_at(q->dev->m, last.guest + last.length - 1, 1);
  if (at) __atomic_store_n(at, (uint8_t)status, __ATOMIC_RELAXED); /* a byte: the rest of its word may be the driver's */
  q->t.statuses[status]++;
  return (uint32_t)written;
}

/* ---- the rings ---- */

static void put16(const queue *q, uint64_t guest, uint16_t value, int is_last) {
  uint16_t *at = (uint16_t *)memory_at(q->dev->m, guest, 2);
  if (!at) return;
  if (is_last) __atomic_store_n(at, value, __ATOMIC_SEQ_CST); else __atomic_store_n(at, value, __ATOMIC_RELAXED);
}

static void give_back(queue *q, uint16_t head, uint32_t written) {
  uint64_t at = q->used + 4 + 8 * (q->seen % q->size);
  uint32_t *entry = (uint32_t *)memory_at(q->dev->m, at, 8);
  if (entry) {
    __atomic_store_n(&entry[0], head, __ATOMIC_RELAXED);
    __atomic_store_n(&entry[1], written, __ATOMIC_RELAXED);
  }
  q->seen++;
  put16(q, q->used + 2, q->seen, 1);
}

static void tell(queue *q, bool no_interrupt) {
  if (q->told == q->seen) return;
  bool is_wanted = !no_interrupt;
  uint16_t event;
  __atomic_thread_fence(__ATOMIC_SEQ_CST); /* the index is stored before the event is loaded */
  if (q->dev->features & F_RING_EVENT) {
    if (check_event(&q->checker, q->avail + 4 + 2 * q->size, &event) == REFUSED) return;
    is_wanted = (uint16_t)(q->seen - event - 1) < (uint16_t)(q->seen - q->told);
  }
  q->told = q->seen;
  if (is_wanted) { signal_to(q->call); q->t.calls++; } else q->t.quiet++;
}

/* A ring or a chain was refused: the device looks again some times, because whoever stored to it may not be done; then it
   gives up (2.1.2: it needs a reset). */
static bool again(queue *q, unsigned *tries) {
  if (++*tries > q->dev->retries) return false;
  q->t.retried++;
  sched_yield();
  return true;
}

/* All that is there. */
static void serve(queue *q) {
  available a = {0};
  unsigned tries = 0, batch = 0;
  bool asked = false;
  while (!q->is_lost && !q->is_stopping) {
    if (check_available(&q->checker, q->avail, q->size, q->seen, &a) == REFUSED) {
      q->t.bad_rings++;
      if (again(q, &tries)) continue;
      q->is_lost = !q->dev->gives_back;
      break;
    }
    if (!a.pending) {
      tell(q, a.no_interrupt);
      batch = 0;
      if (!(q->dev->features & F_RING_EVENT) || asked) return;
      put16(q, q->used + 4 + 8 * q->size, q->seen, 0); /* avail_event: a kick, please, for the next one */
      __atomic_thread_fence(__ATOMIC_SEQ_CST);
      asked = true;
      continue;
    }
    asked = false;
    if (a.head >= q->size) { q->t.beyond++; a.head = 0; }
    bool may_be_indirect = q->dev->features & F_RING_INDIRECT;
    bool is_sound = check_chain(&q->checker, q->table, (uint16_t)q->size, may_be_indirect, a.head, &q->chain) == ACCEPTED;
    if (!is_sound) {
      q->t.bad_chains++;
      if (again(q, &tries)) continue;
      if (!q->dev->gives_back) { q->is_lost = true; break; }
    }
    tries = 0;
    give_back(q, a.head, is_sound ? serve_request(q, &q->chain) : 0);
    if (++batch == BATCH) { tell(q, a.no_interrupt); batch = 0; }
  }
  tell(q, a.no_interrupt);
  if (q->is_lost) { q->t.stopped++; signal_to(q->err); fprintf(stderr, "queue %u needs a reset\n", q->number); }
}

static void *work(void *arg) {
  queue *q = arg;
  struct pollfd fds[2] = {{q->kick, POLLIN, 0}, {q->stop, POLLIN, 0}};
  for (;;) {
    if (!q->is_lost) serve(q);
    /* Where a ring was refused and the queue isn't stopped, it is looked at again soon, kick or not. */
    if (poll(fds, 2, !q->is_lost && (q->dev->gives_back || q->dev->retries) ? 1 : -1) < 0 && errno != EINTR) return 0;
    if (fds[1].revents) return 0;
    uint64_t n;
    if (fds[0].revents & POLLIN && read(q->kick, &n, sizeof n) > 0) q->t.kicks++;
  }
}

bool queue_start(queue *q) {
  const memory *m = q->dev->m;
  if (q->is_running) return true;
  q->table = memory_of_user(m, q->user_table, 16 * (uint64_t)q->size);
  q->avail = memory_of_user(m, q->user_avail, 6 + 2 * (uint64_t)q->size);
  q->used = memory_of_user(m, q->user_used, 6 + 8 * (uint64_t)q->size);
  if (q->table == UINT64_MAX || q->avail == UINT64_MAX || q->used == UINT64_MAX || q->table % 16 || q->avail % 2 || q->used % 4
      || !q->size || q->size > 32768 || q->size & (q->size - 1)) {
    fprintf(stderr, "queue %u: the rings don't lie in the memory\n", q->number);
    return false;
  }
  if (!check_open(&q->checker, m)) { fprintf(stderr, "queue %u: no session\n", q->number); return false; }
  q->stop = eventfd(0, EFD_CLOEXEC);
  q->told = q->seen;
  q->is_lost = false;
  q->is_stopping = false;
  q->is_running = !pthread_create(&q->thread, 0, work, q);
  return q->is_running;
}

void queue_stop(queue *q) {
  if (!q->is_running) return;
  q->is_stopping = true;
  signal_to(q->stop);
  pthread_join(q->thread, 0);
  close(q->stop);
  check_close(&q->checker);
  q->is_running = false;
}
