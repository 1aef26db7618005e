/* A 3D text becomes a session in one program: compile TEXT [IMAGE]. It prints what entry points the code has; of a text that is
   refused it prints the line of `td check`. With IMAGE, the image is written there. It links libtd_c_pack.a beside libtd_c.a. */
#include "common.h"
#include "td_pack.h"

enum { MOST_TEXT = 1 << 22 };

/* The image of a text, in memory of malloc: the first call tells its size, the second one writes it. */
static uint8_t *packed(const uint8_t *text, size_t size, td_packed *told) {
  int32_t code = td_pack(text, size, 0, 0, told);
  uint8_t *image = code == TD_PACK_NO_ROOM ? malloc(told->size) : 0;
  if (image) code = td_pack(text, size, image, told->size, told);
  if (code == TD_PACK_REFUSED) {
    printf("error %s %llu:%llu %s\n", told->code, (unsigned long long)told->line, (unsigned long long)told->column, told->words);
    exit(1);
  }
  if (code != TD_PACKED) stop("td_pack", code);
  return image;
}

static void save(const char *path, const uint8_t *image, size_t size) {
  FILE *file = fopen(path, "wb");
  if (!file || fwrite(image, 1, size, file) != size || fclose(file)) stop(path, 0);
}

int main(int argc, char **argv) {
  if (argc < 2 || argc > 3) stop("usage: compile TEXT [IMAGE]", 0);
  static uint8_t text[MOST_TEXT + 2];
  static td_session s;
  static td_packed told;
  td_fault fault = {0};
  td_entry_point point = {0};
  size_t size = image_of(argv[1], text, sizeof text);
  uint8_t *image = packed(text, size, &told);
  if (argc == 3) save(argv[2], image, told.size);
  int32_t code = td_open(&s, image, told.size, &fault);
  if (code) stop("td_open", code);
  free(image);
  printf("image %llu\n", (unsigned long long)told.size);
  for (uint32_t entry = 0; td_describe(&s, entry, &point) == TD_DONE; entry++)
    printf("entry %s params %llu cells %llu\n", name_of(&s, point.name), (unsigned long long)point.param_count, (unsigned long long)point.cell_count);
  td_close(&s);
  return 0;
}
