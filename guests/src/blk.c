/* A block device in a process of its own (vhost-user). Its guest's memory is mapped here, the guest goes on storing to it, and
   what the guest says is read by the calls of check.h alone.
   blk SOCKET DISK [--queues N] [--retries N] [--give-back] [--unsealed] [--stats FILE] [--rings FILE]: one front end, until it leaves. */
#define _GNU_SOURCE
#include "queue.h"
#include <errno.h>
#include <fcntl.h>
#include <poll.h>
#include <signal.h>
#include <stddef.h>
#include <stdio.h>
#include <stdlib.h>
#include <string.h>
#include <sys/resource.h>
#include <sys/socket.h>
#include <sys/stat.h>
#include <sys/un.h>
#include <time.h>
#include <unistd.h>

enum { /* requests of the vhost-user protocol */
  GET_FEATURES = 1, SET_FEATURES, SET_OWNER, RESET_OWNER, SET_MEM_TABLE, SET_LOG_BASE, SET_LOG_FD, SET_VRING_NUM, SET_VRING_ADDR,
  SET_VRING_BASE, GET_VRING_BASE, SET_VRING_KICK, SET_VRING_CALL, SET_VRING_ERR, GET_PROTOCOL_FEATURES, SET_PROTOCOL_FEATURES,
  GET_QUEUE_NUM, SET_VRING_ENABLE, GET_CONFIG = 24, SET_CONFIG = 25
};
enum { VERSION = 1, REPLY = 4, NEED_REPLY = 8, NO_FD = 0x100, MOST_QUEUES = 16, MOST_FDS = 8, CONFIG_BYTES = 256 };
#define F_PROTOCOL (UINT64_C(1) << 30)
#define P_MQ (UINT64_C(1) << 0)
#define P_REPLY_ACK (UINT64_C(1) << 3)
#define P_CONFIG (UINT64_C(1) << 9)
#define OFFERED_PROTOCOL (P_MQ | P_REPLY_ACK | P_CONFIG)
/* seg_max, block size, flush, several queues, discard, write zeroes */
#define OFFERED (1 << 2 | 1 << 6 | 1 << 9 | 1 << 12 | 1 << 13 | 1 << 14 | F_RING_INDIRECT | F_RING_EVENT | F_VERSION_1 | F_PROTOCOL)

typedef struct {
  uint32_t request, flags, size;
  union {
    uint64_t number;
    struct { uint32_t index, number; } state;
    struct { uint32_t index, flags; uint64_t table, used, avail, log; } addresses;
    struct { uint32_t count, padding; struct { uint64_t guest, size, user, offset; } of[8]; } regions;
    struct { uint32_t offset, size, flags; uint8_t bytes[CONFIG_BYTES]; } config;
  } __attribute__((packed));
} __attribute__((packed)) message;
enum { HEAD = 12 };

static memory memory_of_guest;
static device dev = {.m = &memory_of_guest};
static queue queues[MOST_QUEUES];
static unsigned queue_count = 4;
static bool is_trusting; /* memory that isn't sealed, too */
static uint64_t features, protocol;
static const char *stats_path, *rings_path;
static struct timespec began;

/* ---- what is told ---- */

static void write_stats(void) {
  static const char *const names[KINDS] = {"available", "event", "chain", "descriptor", "header", "segment"};
  FILE *f = stats_path ? fopen(stats_path, "w") : stderr;
  if (!f) return;
  tally all[KINDS] = {{0}};
  tallies t = {0};
  uint64_t gathered = 0, compared = 0, strikes = 0, messages = 0, rejected = 0, loads = 0, steps = 0;
  for (unsigned k = 0; k < queue_count; k++) {
    const queue *q = &queues[k];
    for (int i = 0; i < KINDS; i++) {
      all[i].accepted += q->checker.tallies[i].accepted;
      all[i].rejected += q->checker.tallies[i].rejected;
      all[i].loads += q->checker.tallies[i].loads;
      all[i].steps += q->checker.tallies[i].steps;
    }
    const uint64_t *from = (const uint64_t *)&q->t;
    for (size_t i = 0; i < sizeof t / 8; i++) ((uint64_t *)&t)[i] += from[i];
    t.beyond += q->checker.beyond;
    gathered += q->checker.gathered;
    compared += q->checker.compared;
    strikes += q->checker.strikes;
  }
  struct rusage u;
  getrusage(RUSAGE_SELF, &u);
  fprintf(f, "{\"validators\": \"%s\",\n", check_body);
  for (int i = 0; i < KINDS; i++) {
    fprintf(f, " \"%s\": {\"accepted\": %lu, \"rejected\": %lu, \"loads\": %lu, \"steps\": %lu},\n", names[i], all[i].accepted,
            all[i].rejected, all[i].loads, all[i].steps);
    messages += all[i].accepted + all[i].rejected;
    rejected += all[i].rejected;
    loads += all[i].loads;
    steps += all[i].steps;
  }
  fprintf(f, " \"messages\": %lu, \"rejected\": %lu, \"loads\": %lu, \"steps\": %lu, \"gathered\": %lu, \"compared\": %lu, \"strikes\": %lu,\n",
          messages, rejected, loads, steps, gathered, compared, strikes);
  fprintf(f, " \"requests\": %lu, \"ok\": %lu, \"ioerr\": %lu, \"unsupp\": %lu,\n", t.requests, t.statuses[0], t.statuses[1], t.statuses[2]);
  fprintf(f, " \"in\": %lu, \"out\": %lu, \"flush\": %lu, \"get_id\": %lu, \"discard\": %lu, \"write_zeroes\": %lu,\n", t.by_type[0],
          t.by_type[1], t.by_type[4], t.by_type[8], t.by_type[11], t.by_type[13]);
  fprintf(f, " \"read_bytes\": %lu, \"written_bytes\": %lu, \"kicks\": %lu, \"calls\": %lu, \"quiet\": %lu,\n", t.read_bytes,
          t.written_bytes, t.kicks, t.calls, t.quiet);
  fprintf(f, " \"bad_rings\": %lu, \"bad_chains\": %lu, \"without_status\": %lu, \"retried\": %lu, \"stopped\": %lu,\n", t.bad_rings,
          t.bad_chains, t.bad_walks, t.retried, t.stopped);
  fprintf(f, " \"escapes\": %lu, \"beyond\": %lu, \"by_queue\": [", (uint64_t)escapes, t.beyond);
  for (unsigned k = 0; k < queue_count; k++) fprintf(f, "%s%lu", k ? ", " : "", queues[k].t.requests);
  fprintf(f, "],\n \"cpu_user\": %ld.%06ld, \"cpu_system\": %ld.%06ld}\n", (long)u.ru_utime.tv_sec, (long)u.ru_utime.tv_usec,
          (long)u.ru_stime.tv_sec, (long)u.ru_stime.tv_usec);
  if (f != stderr) fclose(f);
}

/* Where the rings lie, for the neighbour that stores into them. */
static void write_rings(void) {
  FILE *f = rings_path ? fopen(rings_path, "w") : 0;
  if (!f) return;
  for (unsigned k = 0; k < memory_of_guest.table_count; k++) {
    const announced *a = &memory_of_guest.table[k];
    fprintf(f, "region %lu %lu %lu\n", a->guest, a->size, a->offset);
  }
  for (unsigned k = 0; k < queue_count; k++)
    if (queues[k].is_running)
      fprintf(f, "queue %u %lu %lu %lu\n", queues[k].size, queues[k].table, queues[k].avail, queues[k].used);
  fclose(f);
}

static _Noreturn void over(int status) {
  for (unsigned k = 0; k < queue_count; k++) queue_stop(&queues[k]);
  write_stats();
  exit(status);
}

/* ---- the protocol ---- */

static void config_of(uint8_t *c) {
  memset(c, 0, CONFIG_BYTES);
  uint32_t segments = 126, block = SECTOR, zero_segments = MOST_SEGMENTS, zero_sectors = MOST_SECTORS, alignment = 1;
  uint16_t count = (uint16_t)queue_count;
  memcpy(c, &dev.capacity, 8);
  memcpy(c + 12, &segments, 4);
  memcpy(c + 20, &block, 4);
  memcpy(c + 34, &count, 2);
  memcpy(c + 36, &zero_sectors, 4); /* of discard */
  memcpy(c + 40, &zero_segments, 4);
  memcpy(c + 44, &alignment, 4);
  memcpy(c + 48, &zero_sectors, 4); /* of write zeroes */
  memcpy(c + 52, &zero_segments, 4);
  c[56] = 1;
}

static bool receive(int s, message *m, int *fds, unsigned *fd_count) {
  union { struct cmsghdr align; char bytes[CMSG_SPACE(sizeof(int) * MOST_FDS)]; } control;
  struct iovec v = {m, HEAD};
  struct msghdr h = {.msg_iov = &v, .msg_iovlen = 1, .msg_control = control.bytes, .msg_controllen = sizeof control.bytes};
  ssize_t n = recvmsg(s, &h, MSG_CMSG_CLOEXEC | MSG_WAITALL);
  *fd_count = 0;
  if (n != HEAD) return false;
  for (struct cmsghdr *c = CMSG_FIRSTHDR(&h); c; c = CMSG_NXTHDR(&h, c))
    if (c->cmsg_level == SOL_SOCKET && c->cmsg_type == SCM_RIGHTS) {
      *fd_count = (unsigned)((c->cmsg_len - CMSG_LEN(0)) / sizeof(int));
      memcpy(fds, CMSG_DATA(c), *fd_count * sizeof(int));
    }
  if (h.msg_flags & MSG_CTRUNC || (m->flags & 3) != VERSION || m->size > sizeof *m - HEAD) return false;
  memset((char *)m + HEAD, 0, sizeof *m - HEAD);
  return !m->size || recv(s, (char *)m + HEAD, m->size, MSG_WAITALL) == (ssize_t)m->size;
}

static bool answer(int s, message *m, uint32_t size) {
  m->flags = VERSION | REPLY;
  m->size = size;
  return send(s, m, HEAD + size, MSG_NOSIGNAL) == (ssize_t)(HEAD + size);
}

static void start(queue *q) {
  bool is_on = q->is_enabled || !(features & F_PROTOCOL);
  if (is_on && q->kick >= 0 && memory_of_guest.count && q->user_table) {
    queue_start(q);
    write_rings();
  }
}

static void set_fd(int *at, const message *m, const int *fds, unsigned fd_count) {
  if (*at >= 0) close(*at);
  *at = m->number & NO_FD || !fd_count ? -1 : fds[0];
}

static bool set_memory(const message *m, const int *fds, unsigned fd_count) {
  announced table[MOST_ANNOUNCED];
  if (m->regions.count > MOST_ANNOUNCED || m->regions.count != fd_count) return false;
  for (unsigned k = 0; k < m->regions.count; k++)
    table[k] = (announced){m->regions.of[k].guest, m->regions.of[k].size, m->regions.of[k].user, m->regions.of[k].offset};
  bool were_running[MOST_QUEUES];
  for (unsigned k = 0; k < queue_count; k++) {
    were_running[k] = queues[k].is_running;
    queue_stop(&queues[k]);
  }
  memory_unmap(&memory_of_guest);
  bool is_mapped = memory_map(&memory_of_guest, table, fds, fd_count, is_trusting);
  for (unsigned k = 0; k < fd_count; k++) close(fds[k]);
  for (unsigned k = 0; is_mapped && k < queue_count; k++) if (were_running[k]) start(&queues[k]);
  return is_mapped;
}

static bool serve_message(int s, message *m, const int *fds, unsigned fd_count) {
  bool is_good = true;
  uint32_t index = m->request == SET_VRING_KICK || m->request == SET_VRING_CALL || m->request == SET_VRING_ERR ? m->number & 0xff : m->state.index;
  bool is_of_queue = m->request >= SET_VRING_NUM && m->request <= SET_VRING_ERR;
  if ((is_of_queue || m->request == SET_VRING_ENABLE) && index >= queue_count) return false;
  queue *q = &queues[index < MOST_QUEUES ? index : 0];
  bool is_needed = m->flags & NEED_REPLY && protocol & P_REPLY_ACK;
  switch (m->request) {
    case GET_FEATURES: m->number = OFFERED; return answer(s, m, 8);
    case SET_FEATURES:
      features = dev.features = m->number & OFFERED;
      is_good = !(m->number & ~(uint64_t)OFFERED);
      break;
    case GET_PROTOCOL_FEATURES: m->number = OFFERED_PROTOCOL; return answer(s, m, 8);
    case SET_PROTOCOL_FEATURES: protocol = m->number; break;
    case GET_QUEUE_NUM: m->number = queue_count; return answer(s, m, 8);
    case SET_OWNER: case RESET_OWNER: break;
    case SET_MEM_TABLE: is_good = set_memory(m, fds, fd_count); break;
    case SET_VRING_NUM: q->size = m->state.number; break;
    case SET_VRING_BASE: q->seen = (uint16_t)m->state.number; break;
    case SET_VRING_ADDR:
      q->user_table = m->addresses.table;
      q->user_avail = m->addresses.avail;
      q->user_used = m->addresses.used;
      break;
    case GET_VRING_BASE:
      queue_stop(q);
      m->state.number = q->seen;
      return answer(s, m, 8);
    case SET_VRING_KICK:
      queue_stop(q);
      set_fd(&q->kick, m, fds, fd_count);
      start(q);
      break;
    case SET_VRING_CALL: { /* while the queue may run */
      int old = q->call;
      q->call = m->number & NO_FD || !fd_count ? -1 : fds[0];
      if (q->is_running) { queue_stop(q); start(q); }
      if (old >= 0) close(old);
      break;
    }
    case SET_VRING_ERR: set_fd(&q->err, m, fds, fd_count); break;
    case SET_VRING_ENABLE:
      q->is_enabled = m->state.number;
      if (q->is_enabled) start(q); else queue_stop(q);
      break;
    case GET_CONFIG: {
      uint8_t c[CONFIG_BYTES];
      config_of(c);
      if (m->config.offset > CONFIG_BYTES || m->config.size > CONFIG_BYTES - m->config.offset) return false;
      memcpy(m->config.bytes, c + m->config.offset, m->config.size);
      return answer(s, m, 12 + m->config.size);
    }
    case SET_CONFIG: is_good = false; break;
    default:
      fprintf(stderr, "request %u isn't known\n", m->request);
      is_good = false;
  }
  if (!is_needed) return is_good || m->request == SET_CONFIG;
  m->number = !is_good;
  return answer(s, m, 8);
}

static volatile sig_atomic_t is_ended;
static void end(int signal_number) { (void)signal_number; is_ended = 1; }

int main(int argc, char **argv) {
  if (argc < 3) { fprintf(stderr, "usage: blk SOCKET DISK [--queues N] [--retries N] [--give-back] [--unsealed] [--stats FILE] [--rings FILE]\n"); return 2; }
  for (int i = 3; i < argc; i++) {
    if (!strcmp(argv[i], "--give-back")) dev.gives_back = true;
    else if (!strcmp(argv[i], "--unsealed")) is_trusting = true;
    else if (i + 1 == argc) return 2;
    else if (!strcmp(argv[i], "--queues")) queue_count = (unsigned)atoi(argv[++i]);
    else if (!strcmp(argv[i], "--retries")) dev.retries = (unsigned)atoi(argv[++i]);
    else if (!strcmp(argv[i], "--stats")) stats_path = argv[++i];
    else if (!strcmp(argv[i], "--rings")) rings_path = argv[++i];
    else return 2;
  }
  if (queue_count < 1 || queue_count > MOST_QUEUES) return 2;
  struct stat st;
  dev.file = open(argv[2], O_RDWR | O_CLOEXEC);
  if (dev.file < 0 || fstat(dev.file, &st)) { perror(argv[2]); return 2; }
  dev.capacity = (uint64_t)st.st_size / SECTOR;
  for (unsigned k = 0; k < MOST_QUEUES; k++) {
    queues[k] = (queue){.dev = &dev, .number = k, .kick = -1, .call = -1, .err = -1};
  }
  struct sockaddr_un a = {.sun_family = AF_UNIX};
  snprintf(a.sun_path, sizeof a.sun_path, "%s", argv[1]);
  unlink(argv[1]);
  int l = socket(AF_UNIX, SOCK_STREAM | SOCK_CLOEXEC, 0);
  if (l < 0 || bind(l, (struct sockaddr *)&a, sizeof a) || listen(l, 1)) { perror(argv[1]); return 2; }
  struct sigaction on_end = {.sa_handler = end};
  sigaction(SIGTERM, &on_end, 0);
  sigaction(SIGINT, &on_end, 0);
  signal(SIGPIPE, SIG_IGN);
  clock_gettime(CLOCK_MONOTONIC, &began);
  int s = accept4(l, 0, 0, SOCK_CLOEXEC);
  if (s < 0) over(1);
  static message m;
  int fds[MOST_FDS];
  unsigned fd_count;
  while (!is_ended && receive(s, &m, fds, &fd_count))
    if (!serve_message(s, &m, fds, fd_count)) {
      fprintf(stderr, "request %u was refused\n", m.request);
      over(1);
    }
  over(0);
}
