/* An image, whoever made it, becomes C: write_c IMAGE NAME [c|header|parts]. It writes NAME.c, NAME.h and NAME_parts.c; with a word that
   one file to standard output, as `tdc` does of a 3D text. Of an image that is refused it says why: rule, and place. It links
   libtd_c_pack.a. */
#include "common.h"
#include "td_pack.h"

enum { MOST_IMAGE = 1 << 24, FILES = 3 };

static const char *const words[FILES] = {"c", "header", "parts"};
static const char *const ends[FILES] = {".c", ".h", "_parts.c"};

typedef struct {
  uint8_t *bytes;
  size_t size;
} text;

static void refuse(int32_t code, const td_written *told) {
  if (code == TD_PACK_NAME) fprintf(stderr, "error Z4 no name of C\n");
  else if (code == TD_PACK_NO_ENTRY) fprintf(stderr, "error Z5 no entry point\n");
  else if (code != TD_PACK_REFUSED) stop("td_write_c", code);
  else if (told->fault < 3) fprintf(stderr, "I%u\n", told->fault);
  else if (told->fault < 6) fprintf(stderr, "I%u at %llu\n", told->fault, (unsigned long long)told->place);
  else fprintf(stderr, "I6 V%u at %llu\n", told->rule, (unsigned long long)told->place);
  exit(1);
}

/* A file of C, in memory of malloc: the first call tells its size, the second one writes it. */
static text text_of(text image, int which, const char *name) {
  td_written told = {0};
  text found = {0};
  int32_t code = td_write_c(image.bytes, image.size, (td_c_file)which, name, 0, 0, &told);
  found.size = told.size;
  if (code == TD_PACK_NO_ROOM) found.bytes = malloc(found.size);
  if (found.bytes) code = td_write_c(image.bytes, image.size, (td_c_file)which, name, found.bytes, found.size, &told);
  if (code != TD_PACKED) refuse(code, &told);
  return found;
}

static void save(const char *path, const char *end, text file) {
  static char target[4096];
  if (snprintf(target, sizeof target, "%s%s", path, end) >= (int)sizeof target) stop(path, 0);
  FILE *out = fopen(target, "wb");
  if (!out || fwrite(file.bytes, 1, file.size, out) != file.size || fclose(out)) stop(target, 0);
}

/* What begins the names: the last part of a path. */
static const char *name_in(const char *path) {
  const char *slash = strrchr(path, '/');
  return slash ? slash + 1 : path;
}

static void write_all(text image, const char *path) {
  text files[FILES];
  for (int which = 0; which < FILES; which++) files[which] = text_of(image, which, name_in(path));
  for (int which = 0; which < FILES; which++) {
    save(path, ends[which], files[which]);
    free(files[which].bytes);
  }
}

static void write_one(text image, const char *name, const char *word) {
  int which = 0;
  while (which < FILES && strcmp(word, words[which])) which++;
  if (which == FILES) stop("usage: write_c IMAGE NAME [c|header|parts]", 0);
  text file = text_of(image, which, name);
  if (fwrite(file.bytes, 1, file.size, stdout) != file.size || fflush(stdout)) stop("standard output", 0);
  free(file.bytes);
}

int main(int argc, char **argv) {
  static uint8_t bytes[MOST_IMAGE];
  text image = {bytes, 0};
  if (argc < 3 || argc > 4) stop("usage: write_c IMAGE NAME [c|header|parts]", 0);
  image.size = image_of(argv[1], bytes, sizeof bytes);
  if (argc == 3) write_all(image, argv[2]);
  else write_one(image, argv[2], argv[3]);
  return 0;
}
