/* Counts the loads of C that has TD_LOAD, where bench/c_library asks for counts in place of times. */
#ifndef COUNTED_H
#define COUNTED_H
#include <stdint.h>

extern uint64_t counted_loads;

static inline uint64_t counted(const uint64_t *word) {
  counted_loads++;
  return __atomic_load_n(word, __ATOMIC_RELAXED);
}
#define TD_LOAD(word) counted(word)
#endif
