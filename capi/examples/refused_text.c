/* Each allocation refused in turn, of the compiler and of the writer of C: refused_text TEXT. A call that is refused memory answers
   TD_PACK_NO_MEMORY, and leaves nothing behind. The program brings a heap of its own, which counts blocks. */
#include "common.h"
#include "counting_heap.h"
#include "td_pack.h"

enum { ROOM = 1 << 22 };
static uint8_t text[ROOM], image[ROOM], first[ROOM], again[ROOM];
static size_t text_size, image_size;

/* Makes something in a room, and tells its size. */
typedef int32_t maker(uint8_t *room, size_t *size);

static int32_t packed(uint8_t *room, size_t *size) {
  td_packed told;
  int32_t code = td_pack(text, text_size, room, ROOM, &told);
  *size = told.size;
  return code;
}

static int32_t written(uint8_t *room, size_t *size) {
  td_written told;
  int32_t code = td_write_c(image, image_size, TD_C_SOURCE, "x", room, ROOM, &told);
  *size = told.size;
  return code;
}

static void refuse_each(maker *make) {
  size_t size = 0, same = 0;
  allocations = 0;
  int32_t code = make(first, &size);
  if (code) stop("the first round", code);
  if (blocks) stop("blocks that were left", blocks);
  long most = allocations, tried = 0;
  for (refused_at = 1; refused_at <= most; refused_at++) {
    allocations = 0;
    code = make(again, &same);
    tried += code == TD_PACK_NO_MEMORY;
    if (code && code != TD_PACK_NO_MEMORY) stop("an answer for want of memory", code);
    if (!code && allocations >= refused_at) stop("an allocation that was refused, and no call that says so", refused_at);
    if (!code && (same != size || memcmp(first, again, size))) stop("another answer", refused_at);
    if (blocks) stop("blocks that were left", blocks);
  }
  refused_at = 0;
  if (!tried) stop("no allocation was refused", most);
  printf("refused %ld of %ld allocations\n", tried, most);
}

int main(int argc, char **argv) {
  if (argc != 2) stop("usage: refused_text TEXT", 0);
  text_size = image_of(argv[1], text, ROOM);
  refuse_each(packed);
  int32_t code = packed(image, &image_size);
  if (code) stop("td_pack", code);
  refuse_each(written);
  return 0;
}
