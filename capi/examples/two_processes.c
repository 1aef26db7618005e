/* Two processes over memory that both have mapped: one stores messages without end, whole ones and broken ones, and the other validates
   them where they lie. two_processes RNDIS_IMAGE VIRTIO_NET_IMAGE SECONDS. The RNDIS message begins at a word, the other
   one at byte 5 of one. Whatever is accepted was tested on the very values that were loaded: the cells are never wrong.
   The memory is a file that nobody can cut: a load past the end of one that was cut would end the program by SIGBUS. */
#define _GNU_SOURCE
#include "common.h"
#include <fcntl.h>
#include <stdatomic.h>
#include <sys/mman.h>
#include <sys/stat.h>
#include <sys/wait.h>
#include <time.h>
#include <unistd.h>

enum { RNDIS_BYTES = 512, NET_BYTES = 70, NET_PLACE = RNDIS_BYTES + 5, WORDS = 80 };
enum { CHECKSUM_AND_SEGMENTS = 0x3801, MOST_WAITED = 60 };

typedef struct {
  _Atomic uint64_t words[WORDS];
  _Atomic int is_over;
  _Atomic unsigned rounds; /* of the process that stores */
} memory;

/* A file in memory that keeps its size. */
static int sealed_file(void) {
  int file = memfd_create("messages", MFD_ALLOW_SEALING);
  if (file < 0 || ftruncate(file, sizeof(memory)) || fcntl(file, F_ADD_SEALS, F_SEAL_SHRINK | F_SEAL_SEAL)) stop("memfd_create", file);
  return file;
}

/* Who validates asks for seal and size itself, whoever made the file. */
static memory *mapped(int file) {
  struct stat about;
  int seals = fcntl(file, F_GET_SEALS);
  if (seals < 0 || !(seals & F_SEAL_SHRINK)) stop("the memory may be cut", seals);
  if (fstat(file, &about) || about.st_size < (off_t)sizeof(memory)) stop("the memory is too small", 0);
  void *at = mmap(0, sizeof(memory), PROT_READ | PROT_WRITE, MAP_SHARED, file, 0);
  if (at == MAP_FAILED) stop("mmap", 0);
  return at;
}

/* Stores bytes from a place on, word by word, each word by one atomic store. */
static void put(memory *m, size_t place, const uint8_t *bytes, size_t size) {
  for (size_t word = place / 8; word <= (place + size - 1) / 8; word++) {
    uint64_t value = atomic_load_explicit(&m->words[word], memory_order_relaxed);
    uint8_t *b = (uint8_t *)&value;
    for (size_t k = 0; k < 8; k++)
      if (8 * word + k >= place && 8 * word + k < place + size) b[k] = bytes[8 * word + k - place];
    atomic_store_explicit(&m->words[word], value, memory_order_relaxed);
  }
}

static void put_rndis(memory *m, unsigned n) {
  uint32_t head[11] = {1, RNDIS_BYTES, 36, RNDIS_BYTES - 44};
  if (n % 4 == 1) head[0] = 7;
  if (n % 4 == 2) head[1] = 0xffffffff;
  if (n % 4 == 3) head[3]++;
  put(m, 0, (const uint8_t *)head, sizeof head);
}

static void put_net(memory *m, unsigned n) {
  uint8_t head[12] = {1, 1, 54, 0, 0xa8, 5, 34, 0, 16, 0, 0, 0};
  if (n % 3 == 1) head[8] = 44; /* the checksum would lie after the packet */
  if (n % 3 == 2) head[10] = 1;
  put(m, NET_PLACE, head, sizeof head);
}

/* It ends where the process that validates has ended, too. */
static void store_without_end(int file, pid_t parent) {
  memory *m = mapped(file);
  if (!ftruncate(file, 0)) stop("the memory was cut", 0);
  for (unsigned n = 0; !atomic_load(&m->is_over) && (n % 1024 || getppid() == parent); n++) {
    put_rndis(m, n);
    put_net(m, n / 2);
    atomic_store(&m->rounds, n);
  }
  _exit(0);
}

typedef struct { unsigned long accepted, rejected, wrong; } tally;

static int32_t validate(td_session *s, memory *m, td_call *call, uint32_t place, uint32_t length, uint32_t cells) {
  call->place = place;
  call->length = length;
  call->cell_count = cells;
  memset(call->cells, 0, sizeof(uint64_t) * cells);
  int32_t code = td_validate(s, (const uint64_t *)m->words, WORDS, call);
  if (code != TD_ACCEPTED && code != TD_REJECTED) stop("td_validate", code);
  return code;
}

static void count(tally *t, int32_t code, int is_wrong) {
  if (code == TD_REJECTED) {
    t->rejected++;
    return;
  }
  t->accepted++;
  t->wrong += is_wrong != 0;
}

/* Cells: Type, Length, RequestId, Data, DataLength. */
static void take_rndis(td_session *s, memory *m, uint32_t entry, tally *t) {
  static td_call call;
  call.entry = entry;
  call.arg_count = 1;
  call.args[0] = RNDIS_BYTES;
  int32_t code = validate(s, m, &call, 0, RNDIS_BYTES, 5);
  const uint64_t *c = call.cells;
  count(t, code, c[0] != 1 || c[1] > RNDIS_BYTES || c[3] + c[4] > c[1]);
}

/* Cells: NeedsChecksum, ChecksumStart, ChecksumOffset, GsoType, Ecn, GsoSize, Packet. */
static void take_net(td_session *s, memory *m, uint32_t entry, tally *t) {
  static td_call call;
  call.entry = entry;
  call.arg_count = 1;
  call.args[0] = CHECKSUM_AND_SEGMENTS;
  int32_t code = validate(s, m, &call, NET_PLACE, NET_BYTES, 7);
  const uint64_t *c = call.cells;
  count(t, code, (c[0] && c[1] + c[2] + 2 > NET_BYTES - 12) || c[6] != 12);
}

static void say(const char *name, const tally *t) {
  printf("%s accepted %lu rejected %lu wrong %lu\n", name, t->accepted, t->rejected, t->wrong);
}

int main(int argc, char **argv) {
  if (argc != 4) stop("usage: two_processes RNDIS_IMAGE VIRTIO_NET_IMAGE SECONDS", 0);
  static td_session rndis, net; /* a handle keeps its slot, so handles are kept */
  open_image(&rndis, argv[1]);
  open_image(&net, argv[2]);
  uint32_t rndis_entry = entry_of(&rndis, "RNDIS"), net_entry = entry_of(&net, "VIRTIO_NET");
  int file = sealed_file();
  memory *m = mapped(file);
  atomic_store(&m->is_over, 0);
  atomic_store(&m->rounds, 0);
  put_rndis(m, 0);
  put_net(m, 0);
  pid_t parent = getpid(), child = fork();
  if (child < 0) stop("fork", child);
  if (!child) store_without_end(file, parent);
  tally of_rndis = {0}, of_net = {0};
  time_t end = time(0) + atoi(argv[3]) + 1;
  /* On a busy machine it is waited for the other process to have stored some. */
  while (time(0) < end || (atomic_load(&m->rounds) < 1000 && time(0) < end + MOST_WAITED))
    for (int i = 0; i < 1000; i++) {
      take_rndis(&rndis, m, rndis_entry, &of_rndis);
      take_net(&net, m, net_entry, &of_net);
    }
  atomic_store(&m->is_over, 1);
  int status = 0;
  if (waitpid(child, &status, 0) != child || status) stop("the other process", status);
  say("rndis", &of_rndis);
  say("virtio_net", &of_net);
  td_close(&rndis);
  td_close(&net);
  return of_rndis.wrong || of_net.wrong;
}
