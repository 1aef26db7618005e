/* Messages of docs/bench.md, validated by each way of ways.h: what bench/c_library builds and runs.
 *
 *     library FOLDER N ROUNDS
 *
 * The messages are made once. In each round each way validates all of them, format by format, each in the same loop; the lines tell, for each format and
 * way, the least nanoseconds of a message. Before that the ways are compared, on the messages and on each with a byte changed. With ROUNDS 0 each way
 * validates each message once, for a profile of the loops. Compiled with COUNTED, the lines tell loads in place of nanoseconds. Compiled with
 * WITHOUT_LIBRARY, that way is left out; FOLDER has the images that it opens.
 */
#include "ways.h"
#include "made.h"
#include <stdio.h>
#include <stdlib.h>
#include <string.h>
#include <time.h>

enum { FORMATS = 4, MOST_BYTES = 1536, MOST_WAYS = 5 };

typedef struct {
  uint32_t length;
  uint64_t *words;
} message;

static volatile uint64_t sink;

#ifdef COUNTED
uint64_t counted_loads;
#endif

/* How a format's function is called. */
#define CALL_ethernet(F, M, R, O) F((M)->words, (M)->length, R, O)
#define CALL_ipv4(F, M, R, O) F((M)->words, (M)->length, (M)->length, R, O)
#define CALL_tcp(F, M, R, O) F((M)->words, (M)->length, (M)->length, R, O)
#define CALL_rndis(F, M, R, O) F((M)->words, (M)->length, (M)->length, R, O)
#define RECORD_ethernet struct ethernet_ETHERNET_r
#define RECORD_ipv4 struct ipv4_IPV4_r
#define RECORD_tcp struct tcp_TCP_r
#define RECORD_rndis struct rndis_RNDIS_r
enum { FIRST_ethernet, FIRST_ipv4, FIRST_tcp, FIRST_rndis };

/* The loop of a way over a format's messages, and one message's answer. No compiler knows which function is called. */
#define LOOP(WAY, FORMAT, PARAMETERS)                                                        \
  static bool (*const volatile of_##WAY##_##FORMAT) PARAMETERS = WAY##_##FORMAT;             \
  __attribute__((noinline)) static void loop_##WAY##_##FORMAT(const message *m, uint32_t count) { \
    bool (*const way) PARAMETERS = of_##WAY##_##FORMAT;                                      \
    struct td_outcome outcome;                                                               \
    uint64_t seen = 0;                                                                       \
    outcome.position = 0;                                                                    \
    for (uint32_t n = FIRST_##FORMAT; n < count; n += FORMATS) {                             \
      RECORD_##FORMAT r = {0};                                                               \
      seen += CALL_##FORMAT(way, &m[n], &r, &outcome);                                       \
      seen += outcome.position;                                                              \
    }                                                                                        \
    sink = seen;                                                                             \
  }                                                                                          \
  static bool answer_##WAY##_##FORMAT(const message *m, void *r, struct td_outcome *o) {     \
    return CALL_##FORMAT(of_##WAY##_##FORMAT, m, (RECORD_##FORMAT *)r, o);                   \
  }
FORMATS_OF(LOOP, by_hand)
FORMATS_OF(LOOP, written)
FORMATS_OF(LOOP, inlined)
#ifndef WITHOUT_LIBRARY
FORMATS_OF(LOOP, by_library)
#endif

typedef struct {
  const char *name;
  void (*loops[FORMATS])(const message *, uint32_t);
  bool (*answers[FORMATS])(const message *, void *, struct td_outcome *);
} way;

#define WAY(NAME)                                                                  \
  {#NAME,                                                                          \
   {loop_##NAME##_ethernet, loop_##NAME##_ipv4, loop_##NAME##_tcp, loop_##NAME##_rndis}, \
   {answer_##NAME##_ethernet, answer_##NAME##_ipv4, answer_##NAME##_tcp, answer_##NAME##_rndis}},
static const way ways[] = {WAY(by_hand) WAY(written) WAY(inlined)
#ifndef WITHOUT_LIBRARY
                               WAY(by_library)
#endif
};
enum { WAYS = sizeof ways / sizeof *ways };
static const char *const NAMES[FORMATS] = {"ethernet", "ipv4", "tcp", "rndis"};

static void stop(const char *what, uint32_t n) {
  fprintf(stderr, "library: %s, message %u\n", what, (unsigned)n);
  exit(2);
}

static message made(uint32_t n) {
  static uint8_t bytes[MOST_BYTES];
  message m = {(uint32_t)make_message(n, bytes), 0};
  m.words = calloc((m.length + 7) / 8 + 1, sizeof *m.words);
  if (!m.words) stop("no memory", n);
  memcpy(m.words, bytes, m.length);
  return m;
}

/* Verdict, record and position are the same for all ways; by hand (the first way) nothing is told of a rejection. */
static void compare(const message *m, uint32_t n) {
  struct td_outcome outcomes[MOST_WAYS];
  unsigned char records[MOST_WAYS][64];
  bool accepted[MOST_WAYS];
  memset(records, 0, sizeof records);
  for (int k = 0; k < WAYS; k++) accepted[k] = ways[k].answers[n % FORMATS](m, records[k], &outcomes[k]);
  for (int k = 1; k < WAYS; k++) {
    bool is_same = accepted[k] == accepted[0];
    if (accepted[0]) is_same = is_same && outcomes[k].position == outcomes[0].position && !memcmp(records[k], records[0], sizeof records[0]);
    else is_same = is_same && outcomes[k].position == outcomes[1].position && outcomes[k].reason == outcomes[1].reason;
    if (!is_same) stop(ways[k].name, n);
  }
}

/* Each message as it is, and with a byte of its first 48 changed. */
static unsigned long compared(message *messages, uint32_t count) {
  unsigned long rows = 0;
  for (uint32_t n = 0; n < count; n++) {
    message *m = &messages[n];
    compare(m, n);
    uint8_t *byte = (uint8_t *)m->words + n / 4 * 7 % (m->length < 48 ? m->length : 48), before = *byte;
    *byte = (uint8_t)(before + 1 + n / 4 * 31);
    compare(m, n);
    *byte = before;
    rows += 2;
  }
  return rows;
}

static double now(void) {
  struct timespec t;
  clock_gettime(CLOCK_PROCESS_CPUTIME_ID, &t);
  return 1e9 * (double)t.tv_sec + (double)t.tv_nsec;
}

static double made_loads(void) {
#ifdef COUNTED
#ifndef WITHOUT_LIBRARY
  return (double)(counted_loads + loads_of_library());
#else
  return (double)counted_loads;
#endif
#else
  return 0;
#endif
}

/* Nanoseconds of a loop, or its loads. */
static double taken(void (*loop)(const message *, uint32_t), const message *messages, uint32_t count) {
  double loads = made_loads(), begin = now();
  loop(messages, count);
  double end = now();
#ifdef COUNTED
  return begin > end ? 0 : made_loads() - loads;
#else
  (void)loads;
  return end - begin;
#endif
}

int main(int argc, char **argv) {
  if (argc != 4) {
    fprintf(stderr, "usage: library FOLDER N ROUNDS\n");
    return 2;
  }
  uint32_t count = (uint32_t)strtoul(argv[2], 0, 10) / FORMATS * FORMATS;
  int rounds = atoi(argv[3]);
  message *messages = calloc(count + 1, sizeof *messages);
  if (!messages || !count) stop("messages", count);
  for (uint32_t n = 0; n < count; n++) messages[n] = made(n);
#ifndef WITHOUT_LIBRARY
  open_library(argv[1]);
#endif
  if (!rounds) {
    for (int k = 0; k < WAYS; k++)
      for (int format = 0; format < FORMATS; format++) ways[k].loops[format](messages, count);
    return 0;
  }
  printf("compared %lu\n", compared(messages, count));
  static double least[FORMATS][MOST_WAYS];
  for (int round = 0; round < rounds; round++)
    for (int format = 0; format < FORMATS; format++)
      for (int k = 0; k < WAYS; k++) {
        double found = taken(ways[k].loops[format], messages, count);
        if (!round || found < least[format][k]) least[format][k] = found;
      }
  for (int format = 0; format < FORMATS; format++) {
    printf("%s", NAMES[format]);
    for (int k = 0; k < WAYS; k++) printf(" %.3f", least[format][k] / (count / FORMATS));
    printf("\n");
  }
  return 0;
}
