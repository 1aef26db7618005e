/* SPDX-License-Identifier: Apache-2.0 OR MIT
   td_pack.h: a 3D text becomes the image that td_open reads, by the compiler of `td pack`; each image is accepted by the verifier,
   and its code does what the text means. An image, whoever made it, becomes C that does what its code does, or is refused. The
   library is libtd_c_pack.a; a program that only validates needs neither. Memory is taken from the same heap as by td.h.
   docs/c-library.md says more. */
#ifndef TD_PACK_H
#define TD_PACK_H
#include <stddef.h>
#include <stdint.h>
#ifdef __cplusplus
extern "C" {
#endif

typedef enum {
  TD_PACKED = 0,          /* the image, or the C, is written; size says how many bytes it has */
  TD_PACK_NO_MEMORY = 4,
  TD_PACK_POINTER = 7,    /* a pointer is null */
  TD_PACK_TOO_LONG = 21,  /* the text has more than 4,194,304 bytes */
  TD_PACK_REFUSED = 22,   /* the text, or the image, is refused: the first refusal is told */
  TD_PACK_NO_ROOM = 23,   /* what is to be written has `size` bytes, for which there is no room; nothing is written */
  TD_PACK_NAME = 24,      /* names of C can't begin so: a letter, then letters, digits and _ */
  TD_PACK_NO_ENTRY = 25   /* the code has no entry point, so its C would have no function to call */
} td_pack_code;

typedef struct {
  uint64_t size;          /* of the image, where it is written or has no room */
  uint64_t place;         /* where the text is refused: the byte, from 0; at an early end the text's length */
  uint64_t line, column;  /* its line, and its byte in the line, both from 1 */
  char code[8];           /* as a string: L1 to A2, as `td check` prints it; docs/ERRORS.md has all */
  char words[32];         /* likewise: why */
} td_packed;

/* The export. A program calls the function below in its place. */
int32_t td_c_pack(const uint8_t *text, size_t size, uint8_t *image, size_t room, td_packed *told);

/* Checks a text of `size` bytes, and writes the image of its code into `room` bytes. Text, image and what is told are the caller's
   alone while this runs. With no room, null is an image. */
static inline int32_t td_pack(const void *text, size_t size, void *image, size_t room, td_packed *told) {
  uint8_t none = 0;
  if (!text || !told || (!image && room)) return TD_PACK_POINTER;
  return td_c_pack((const uint8_t *)text, size, image ? (uint8_t *)image : &none, room, told);
}

/* Which file of C is written of an image. Each source includes NAME.h. */
typedef enum {
  TD_C_SOURCE = 0,        /* NAME.c: the functions */
  TD_C_HEADER = 1,        /* NAME.h: their declarations */
  TD_C_PARTS = 2          /* NAME_parts.c: the functions for messages in pieces, each of which begins at any byte */
} td_c_file;

/* What is told of an image. */
typedef struct {
  uint64_t size;          /* of the file, where it is written or has no room */
  uint64_t place;         /* where the image is refused: by fault 3 to 5 the byte, from 0; by 6 the instruction; else 0 */
  uint32_t fault;         /* why: 1 to 6 for I1 to I6; docs/language/images.md has all */
  uint32_t rule;          /* by fault 6 the verifier's rule, 1 to 7 for V1 to V7; else 0 */
} td_written;

/* The export. A program calls the function below in its place. */
int32_t td_c_write(const uint8_t *image, size_t size, uint32_t which, const uint8_t *name, size_t name_size, uint8_t *text, size_t room, td_written *told);

/* Reads an image of `size` bytes, and writes a file of C of its code into `room` bytes; `name` begins the names of its functions.
   Image, name, text and what is told are the caller's alone while this runs. With no room, null is a text. */
static inline int32_t td_write_c(const void *image, size_t size, td_c_file which, const char *name, void *text, size_t room, td_written *told) {
  uint8_t none = 0;
  size_t count = 0;
  if (!image || !name || !told || (!text && room)) return TD_PACK_POINTER;
  while (name[count]) count++;
  return td_c_write((const uint8_t *)image, size, (uint32_t)which, (const uint8_t *)name, count, text ? (uint8_t *)text : &none, room, told);
}

#ifdef __cplusplus
}
#endif
#endif
