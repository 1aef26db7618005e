/* Freestanding: no libc, no malloc. The three functions of the heap stand over memory that the caller gives, and the program brings memcpy, memmove and
   memset; gcc -O2 -ffreestanding -nostdlib -static -DIMAGE='"rndis.image"' arena.c libtd_c.a. Once the session is open,
   a validation takes no memory: the arena may be as large as what td_open took. The stack that it takes is looked at, too. Exit status 0: all
   of it is as said. */
#include "td.h"
#include "td_heap.h"

enum { PAINTED = 64 * 1024, PAINT = 0xa5 };
static _Alignas(16) uint8_t arena[256 * 1024];
static size_t used;

td_block rattle_alloc(size_t size, size_t align) {
  (void)align; /* at most 16 */
  size_t need = (size + 15) & ~(size_t)15;
  if (need == 0) need = 16;
  if (need > sizeof arena - used) return (td_block){0, (void *)1};
  void *at = arena + used;
  used += need;
  return (td_block){1, at};
}

/* The arena is given back as a whole. */
void rattle_dealloc(void *at, size_t size) {
  (void)at;
  (void)size;
}

void *memcpy(void *to, const void *from, size_t n) {
  uint8_t *a = to;
  const uint8_t *b = from;
  while (n--) *a++ = *b++;
  return to;
}

void *memmove(void *to, const void *from, size_t n) {
  uint8_t *a = to;
  const uint8_t *b = from;
  if (a < b) return memcpy(to, from, n);
  while (n--) a[n] = b[n];
  return to;
}

void *memset(void *to, int value, size_t n) {
  uint8_t *a = to;
  while (n--) *a++ = (uint8_t)value;
  return to;
}

td_block rattle_realloc(void *at, size_t old_size, size_t new_size, size_t align) {
  td_block b = rattle_alloc(new_size, align);
  if (b.is_ok) memcpy(b.at, at, old_size < new_size ? old_size : new_size);
  return b;
}

__asm__(".section .rodata\n.global image\n.global image_end\nimage: .incbin \"" IMAGE "\"\nimage_end:\n.text\n");
extern const uint8_t image[], image_end[];
static uint64_t words[64];
static td_call call;

static void put_line(const char *bytes, size_t size) {
  long result;
  __asm__ volatile("syscall" : "=a"(result) : "a"(1), "D"(1), "S"(bytes), "d"(size) : "rcx", "r11", "memory");
}

static void say(const char *name, uint64_t value) {
  char line[64], digits[20];
  size_t n = 0, k = 0;
  while (name[n]) {
    line[n] = name[n];
    n++;
  }
  do digits[k++] = (char)('0' + value % 10);
  while (value /= 10);
  while (k) line[n++] = digits[--k];
  line[n++] = '\n';
  put_line(line, n);
}

/* Paints the stack below a place. */
static __attribute__((noinline)) void paint(volatile uint8_t *top) {
  for (size_t i = 1024; i < PAINTED; i++) top[-(ptrdiff_t)i] = PAINT;
}

/* How much of the painted stack was used since. */
static __attribute__((noinline)) size_t used_below(volatile uint8_t *top) {
  size_t i = PAINTED - 1;
  while (i > 1024 && top[-(ptrdiff_t)i] == PAINT) i--;
  return i;
}

__attribute__((force_align_arg_pointer)) void _start(void) {
  td_session s = {0};
  td_fault fault = {0};
  uint32_t entry = 0;
  int32_t opened = td_open(&s, image, (size_t)(image_end - image), &fault);
  say("open ", (uint64_t)opened);
  say("arena ", used);
  int32_t found = td_entry(&s, "RNDIS", 5, &entry);
  words[0] = 1 | (uint64_t)512 << 32;
  words[1] = 36 | (uint64_t)468 << 32;
  call.entry = entry;
  call.length = 512;
  call.arg_count = 1;
  call.args[0] = 512;
  call.cell_count = 5;
  size_t before = used;
  volatile uint8_t *top = __builtin_frame_address(0);
  paint(top);
  int32_t verdict = td_validate(&s, words, 64, &call);
  size_t stack = used_below(top);
  say("verdict ", (uint64_t)verdict);
  say("position ", call.position);
  say("memory taken by the validation ", used - before);
  say("stack taken by the validation ", stack);
  long status = opened || found || verdict || used != before;
  __asm__ volatile("syscall" ::"a"(60), "D"(status) : "memory");
  __builtin_unreachable();
}
