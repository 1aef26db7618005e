/* SPDX-License-Identifier: Apache-2.0 OR MIT
   td.h: messages in memory that others keep storing to, validated by verified code.

   A session is opened once, from an image (`td pack <MODULE >IMAGE`). From then on only td_again, td_validate_parts, td_room,
   td_validate_pieces and the calls that open codes, seats and their sessions ask for memory, and no call waits for anybody.
   Each 64-bit word of a message is loaded at most once, by one atomic load, and only where a byte of it is looked at; nothing
   is expected of what a load gives. docs/c-library.md says what a program owes, and what is proved. Each function answers a
   td_code, but for those that close, td_piece_at and td_reason_word. */
#ifndef TD_H
#define TD_H

/* The version of this header: major, minor and patch, eight bits each. */
#define TD_VERSION 0x010100

#include <stdbool.h>
#include <stddef.h>
#include <stdint.h>
#ifdef __cplusplus
extern "C" {
#endif

typedef enum {
  TD_ACCEPTED = 0,  /* of td_validate; every other call answers TD_DONE */
  TD_DONE = 0,
  TD_REJECTED = 1,  /* td_validate: position and reason are in the call, the frames by td_frame */
  TD_UNFIT = 2,     /* arguments or cells are more or fewer than the entry point's, or one is too wide; nothing was loaded */
  TD_CLOSED = 3,    /* the handle holds no session (no codes, no seat) */
  TD_NO_MEMORY = 4,
  TD_MISSING = 5,   /* the code has no such entry point, parameter, cell, copy buffer or name, the last failure no such
                       frame, or there is no such code */
  TD_PAST = 6,      /* the message doesn't lie within the words; nothing was loaded */
  TD_POINTER = 7,   /* a pointer is null, that of the words isn't aligned to 8, or what has to be two handles is one */
  TD_TOO_MUCH = 8,  /* a message of more than 64 stretches or 1,024 pieces, or of 2^32 bytes and more, and nothing was
                       loaded; room for more than 1,024 pieces; more than 17 codes */
  TD_I1 = 11,       /* the bytes are no image */
  TD_I2 = 12,       /* unknown version */
  TD_I3 = 13,       /* the image is too short: the place is its length */
  TD_I4 = 14,       /* the field that begins at the place has a value that isn't allowed */
  TD_I5 = 15,       /* bytes behind the image, from the place on */
  TD_I6 = 16        /* the verifier refuses the code: the place is the instruction's, the rule 1 to 7 for V1 to V7 */
} td_code;

/* Headers of written C have the same lines: the first that is included counts. */
#ifndef TD_REASONS
#define TD_REASONS
typedef enum {
  TD_NOT_ENOUGH = 0, TD_IMPOSSIBLE = 1, TD_LIST_SIZE = 2, TD_ACTION = 3, TD_CONSTRAINT = 4, TD_PADDING = 5, TD_NO_REASON = 6
} td_reason;
#endif

typedef enum { TD_FIELD = 0, TD_WHERE = 1, TD_SWITCH = 2 } td_spot;

/* A session: one verified code, which sessions share, and room for one validation at a time. A handle is all zero
   before its first call (`td_session s = {0};`). Never look in it, and never copy one that was opened. One call at a time;
   another thread may use it once it has it by a lock, a thread's start or join, or a sequentially consistent atomic.
   For threads side by side, td_again makes a session for each. */
typedef struct { void *at; bool full; } td_session;

/* Why bytes are no image. */
typedef struct { uint64_t place; uint32_t rule; } td_fault;

typedef struct { uint32_t name, unused; uint64_t param_count, cell_count, buffer_count; } td_entry_point;
/* A parameter or a cell. For a cell that is a field of an output record has_field is 1 and field the number of its name.
   is_place is 1 where it is a place in the message. */
typedef struct { uint32_t name, has_field, field, bytes, is_place; } td_part;
/* A copy buffer: the number of its name, and for how many bytes it has room. */
typedef struct { uint32_t name, room; } td_buffer_part;
/* A type that encloses a failure: the numbers of its name and of the field's (where spot is TD_FIELD), the byte at which that
   began, and why. */
typedef struct { uint32_t kind, spot, field, start, reason; } td_frame_row;

typedef struct {
  uint32_t entry;                  /* in: the entry point's number, by td_entry */
  uint32_t place, length;          /* in: the message's first byte in the words, and how many bytes it has */
  uint32_t arg_count, cell_count;  /* in: as many as the entry point has parameters and cells */
  uint32_t position, reason;       /* out, where the answer is TD_ACCEPTED or TD_REJECTED */
  uint32_t unused;
  uint64_t frame_count;            /* out, likewise */
  uint64_t load_count;             /* out, likewise: how many loads were made, each of another word of the message */
  uint64_t step_count;             /* out, likewise: how many steps of code were run: one for each instruction, for each byte
                                      or element that one looks at for zeros, and for each byte that is copied
                                      (docs/language/code.md); 2^64 - 1 where they are more */
  uint64_t args[16];               /* in */
  uint64_t cells[64];              /* in and out: as the validation left them, where it rejected, too. One that the format
                                      doesn't set for this message stays as it was: put 0 there before. What was copied
                                      td_copy tells */
} td_call;

typedef struct { const uint64_t *at; size_t count; } td_words;

/* Bytes of the words that stand one after the other. */
typedef struct { uint32_t place, size; } td_stretch;

/* Headers of written C have the same lines: the first that is included counts. */
#ifndef TD_PIECE
#define TD_PIECE
/* A piece of a message: `size` bytes, of which the first is byte `place` of these words. */
struct td_piece {
  const uint64_t *words;
  uint32_t place;
  uint32_t size;
};
#endif
typedef struct td_piece td_piece;

/* A message has so many pieces at most. */
enum { TD_MOST_PIECES = 1024 };

/* A piece as the library takes it: the words that hold a byte of it, and twice how many these are. */
typedef struct { td_words words; size_t count; uint32_t place, size; } td_c_piece;

/* A load that was made: the stretch or piece, from 0 (0 where the message is one), the word of the words, and what the load
   gave. */
typedef struct { uint32_t stretch, word; uint64_t value; } td_load;

/* Codes of which one is published after the other, so that a validator is replaced while others validate (a handle as
   td_session is, for the one who publishes), and a seat that asks which one is published (for each thread). */
typedef struct { td_session inner; } td_codes;
typedef struct { td_session inner; } td_seat;

/* The exports. A program calls the functions below in their place. The number in the names of the two by which a handle begins is
   that of the layouts above, so a header of other layouts doesn't link. */
int32_t td_c_open_1(td_session *s, bool full, const uint8_t *image, size_t size, td_fault *fault);
int32_t td_c_again(td_session *s, bool full, td_session *other, bool other_full);
void td_c_close(td_session *s, bool full);
int32_t td_c_entry(td_session *s, bool full, const uint8_t *name, size_t size, uint32_t *number);
int32_t td_c_describe(td_session *s, bool full, uint32_t entry, td_entry_point *told);
int32_t td_c_param(td_session *s, bool full, uint32_t entry, size_t place, td_part *told);
int32_t td_c_cell(td_session *s, bool full, uint32_t entry, size_t place, td_part *told);
int32_t td_c_buffer(td_session *s, bool full, uint32_t entry, size_t place, td_buffer_part *told);
int32_t td_c_copy(td_session *s, bool full, size_t place, uint8_t *bytes, size_t room, uint64_t *size);
int32_t td_c_frame(td_session *s, bool full, size_t place, td_frame_row *told);
int32_t td_c_name(td_session *s, bool full, uint32_t number, uint8_t *bytes, size_t room, uint64_t *size);
int32_t td_c_validate(td_session *s, bool full, td_call *call, td_words *words, size_t count, td_load *loads, size_t room);
int32_t td_c_validate_parts(td_session *s, bool full, td_call *call, const td_stretch *parts, size_t part_count, td_words *words,
                            size_t count, td_load *loads, size_t room);
int32_t td_c_room(td_session *s, bool full, size_t count);
int32_t td_c_validate_pieces(td_session *s, bool full, td_call *call, td_c_piece *pieces, size_t piece_count, td_load *loads,
                             size_t room);
int32_t td_c_codes_1(td_session *s, bool full);
int32_t td_c_add(td_session *s, bool full, const uint8_t *image, size_t size, td_fault *fault);
int32_t td_c_begin(td_session *s, bool full);
int32_t td_c_publish(td_session *s, bool full, uint32_t *number);
int32_t td_c_seat(td_session *s, bool full, td_session *other, bool other_full);
int32_t td_c_current(td_session *s, bool full, uint32_t *number);
int32_t td_c_version(td_session *s, bool full, uint32_t number, td_session *other, bool other_full);

/* Reads an image, verifies its code and takes room for validations. Where this is done, what the handle held is freed; else
   the handle is as before, and the fault says where the bytes are no image (TD_I3 to TD_I6). The bytes are the caller's
   alone while this runs: an image of a guest is copied first. */
static inline int32_t td_open(td_session *s, const void *image, size_t size, td_fault *fault) {
  if (!s || !image || !fault) return TD_POINTER;
  return td_c_open_1(s, s->full, (const uint8_t *)image, size, fault);
}

/* Another session by the same code, with room of its own. */
static inline int32_t td_again(td_session *s, td_session *other) {
  if (!s || !other || s == other) return TD_POINTER;
  return td_c_again(s, s->full, other, other->full);
}

/* Frees the room, and the code with its last session. The handle may be opened again. */
static inline void td_close(td_session *s) {
  if (s) td_c_close(s, s->full);
}

/* The number of the first entry point of this name. */
static inline int32_t td_entry(td_session *s, const char *name, size_t size, uint32_t *number) {
  if (!s || !name || !number) return TD_POINTER;
  return td_c_entry(s, s->full, (const uint8_t *)name, size, number);
}

/* What an entry point has. Entry points are numbered from 0; TD_MISSING ends them. */
static inline int32_t td_describe(td_session *s, uint32_t entry, td_entry_point *told) {
  if (!s || !told) return TD_POINTER;
  return td_c_describe(s, s->full, entry, told);
}

static inline int32_t td_param(td_session *s, uint32_t entry, size_t place, td_part *told) {
  if (!s || !told) return TD_POINTER;
  return td_c_param(s, s->full, entry, place, told);
}

static inline int32_t td_cell(td_session *s, uint32_t entry, size_t place, td_part *told) {
  if (!s || !told) return TD_POINTER;
  return td_c_cell(s, s->full, entry, place, told);
}

static inline int32_t td_buffer(td_session *s, uint32_t entry, size_t place, td_buffer_part *told) {
  if (!s || !told) return TD_POINTER;
  return td_c_buffer(s, s->full, entry, place, told);
}

/* As many bytes of what the entry point's copy buffer at this place holds after the last validation as there is room for,
   and how many it holds. They are bytes of the loads that were validated. After a rejection it holds what was copied before
   the failure. TD_MISSING: no entry point has so many buffers. */
static inline int32_t td_copy(td_session *s, size_t place, void *bytes, size_t room, uint64_t *size) {
  if (!s || (!bytes && room) || !size) return TD_POINTER;
  uint8_t none;
  return td_c_copy(s, s->full, place, room ? (uint8_t *)bytes : &none, room, size);
}

/* A frame of the last failure; place 0 is the innermost. */
static inline int32_t td_frame(td_session *s, size_t place, td_frame_row *told) {
  if (!s || !told) return TD_POINTER;
  return td_c_frame(s, s->full, place, told);
}

/* As many bytes of a name as there is room for (without any, bytes may be null), and how many it has. No zero is put behind
   them. */
static inline int32_t td_name(td_session *s, uint32_t number, char *bytes, size_t room, uint64_t *size) {
  if (!s || (!bytes && room) || !size) return TD_POINTER;
  uint8_t none;
  return td_c_name(s, s->full, number, room ? (uint8_t *)bytes : &none, room, size);
}

/* Validates the message that begins at byte call->place of `count` words. Where the answer isn't 0 or 1, the call is as
   before. All words are mapped until this returns: a file that another process cuts takes them away (SIGBUS), so share one
   that is sealed (F_SEAL_SHRINK). Whoever touches them meanwhile does so by atomic operations, or from another process,
   device or machine. No pointer to them is kept. A place has 32 bits: never cut a larger one. */
static inline int32_t td_validate(td_session *s, const uint64_t *words, size_t count, td_call *call) {
  if (!s || !call || (!words && count) || (uintptr_t)words % 8) return TD_POINTER;
  td_words w = {words, count};
  td_load none = {0, 0, 0};
  return td_c_validate(s, s->full, call, &w, count, &none, 0);
}

/* The same, and the loads that were made, in their order: as many as there is room for, of call->load_count in all. What was tested
   are these values, whatever the words hold by now. */
static inline int32_t td_validate_loads(td_session *s, const uint64_t *words, size_t count, td_call *call, td_load *loads,
                                        size_t room) {
  if (!s || !call || !loads || (!words && count) || (uintptr_t)words % 8) return TD_POINTER;
  td_words w = {words, count};
  return td_c_validate(s, s->full, call, &w, count, loads, room);
}

/* The same for a message whose bytes are these stretches of the words, one after the other (a scatter list), with the loads
   that were made; call->place and call->length aren't looked at, nor are the stretches where the handle holds no session.
   Memory for the list of stretches is taken before the first load, and given back. */
static inline int32_t td_validate_parts_loads(td_session *s, const uint64_t *words, size_t count, const td_stretch *parts,
                                              size_t part_count, td_call *call, td_load *loads, size_t room) {
  if (!s || !call || !parts || !loads || (!words && count) || (uintptr_t)words % 8) return TD_POINTER;
  td_words w = {words, count};
  return td_c_validate_parts(s, s->full, call, parts, part_count, &w, count, loads, room);
}

static inline int32_t td_validate_parts(td_session *s, const uint64_t *words, size_t count, const td_stretch *parts,
                                        size_t part_count, td_call *call) {
  td_load none = {0, 0, 0};
  return td_validate_parts_loads(s, words, count, parts, part_count, call, &none, 0);
}

/* The piece of so many bytes that begins at any byte of memory. */
static inline td_piece td_piece_at(const void *bytes, uint32_t size) {
  uint32_t place = (uint32_t)((uintptr_t)bytes % 8);
  td_piece piece = {(const uint64_t *)(const void *)((const char *)bytes - place), place, size};
  return piece;
}

/* Takes room for messages of so many pieces, at most 1,024. The handle keeps it until it is closed, or opened again. */
static inline int32_t td_room(td_session *s, size_t piece_count) {
  if (!s) return TD_POINTER;
  return td_c_room(s, s->full, piece_count);
}

/* The same for a message of pieces, one after the other, each with words of its own: anywhere in memory, in other mappings,
   however far apart. They are at most 1,024. Only words that hold a byte of a piece are loaded. A load's stretch is the piece,
   and its word is of that piece's words. This takes 32 KiB of stack; and memory before the first load, if the handle has no
   room for so many pieces yet, which it keeps. */
static inline int32_t td_validate_pieces_loads(td_session *s, const td_piece *pieces, size_t piece_count, td_call *call,
                                               td_load *loads, size_t room) {
  td_c_piece all[TD_MOST_PIECES + 1]; /* one too many is refused */
  size_t count = piece_count <= TD_MOST_PIECES ? piece_count : TD_MOST_PIECES + 1;
  if (!s || !call || !pieces || !loads) return TD_POINTER;
  for (size_t k = 0; k < count; k++) {
    const td_piece *p = &pieces[k];
    all[k].count = ((size_t)p->place + p->size + 7) / 8;
    if ((!p->words && all[k].count) || (uintptr_t)p->words % 8) return TD_POINTER;
    all[k].words.at = p->words;
    all[k].words.count = all[k].count;
    all[k].place = p->place;
    all[k].size = p->size;
  }
  return td_c_validate_pieces(s, s->full, call, all, count, loads, room);
}

static inline int32_t td_validate_pieces(td_session *s, const td_piece *pieces, size_t piece_count, td_call *call) {
  td_load none = {0, 0, 0};
  return td_validate_pieces_loads(s, pieces, piece_count, call, &none, 0);
}

/* A handle for codes, which has none yet. What it held before is freed. */
static inline int32_t td_codes_open(td_codes *c) {
  if (!c) return TD_POINTER;
  return td_c_codes_1(&c->inner, c->inner.full);
}

/* A code more, by its image; they are numbered from 0 in this order. TD_TOO_MUCH: there are 17. TD_CLOSED: the handle isn't
   open, or the first one is published already. */
static inline int32_t td_codes_add(td_codes *c, const void *image, size_t size, td_fault *fault) {
  if (!c || !image || !fault) return TD_POINTER;
  return td_c_add(&c->inner, c->inner.full, (const uint8_t *)image, size, fault);
}

/* From now on code 0 is published, and no code is added any more. TD_MISSING: there is none, and some may be added still.
   TD_NO_MEMORY: the codes are freed. */
static inline int32_t td_codes_begin(td_codes *c) {
  if (!c) return TD_POINTER;
  return td_c_begin(&c->inner, c->inner.full);
}

/* Publishes the next code, and tells its number. TD_MISSING: the last one is published. */
static inline int32_t td_codes_publish(td_codes *c, uint32_t *number) {
  if (!c || !number) return TD_POINTER;
  return td_c_publish(&c->inner, c->inner.full, number);
}

/* A seat, for another thread. It may be used after the codes were closed. */
static inline int32_t td_codes_seat(td_codes *c, td_seat *seat) {
  if (!c || !seat || &c->inner == &seat->inner) return TD_POINTER;
  return td_c_seat(&c->inner, c->inner.full, &seat->inner, seat->inner.full);
}

static inline void td_codes_close(td_codes *c) {
  if (c) td_close(&c->inner);
}

/* Loads which code is published: its number. The numbers that a seat loads never fall. */
static inline int32_t td_seat_current(td_seat *seat, uint32_t *number) {
  if (!seat || !number) return TD_POINTER;
  return td_c_current(&seat->inner, seat->inner.full, number);
}

/* A session by the code of this number, with room of its own: one for each code is opened before the first message comes. */
static inline int32_t td_seat_session(td_seat *seat, uint32_t number, td_session *s) {
  if (!seat || !s || &seat->inner == s) return TD_POINTER;
  return td_c_version(&seat->inner, seat->inner.full, number, s, s->full);
}

static inline void td_seat_close(td_seat *seat) {
  if (seat) td_close(&seat->inner);
}

/* The word for a reason in reports. */
static inline const char *td_reason_word(uint32_t reason) {
  switch (reason) {
    case TD_NOT_ENOUGH: return "notenough";
    case TD_IMPOSSIBLE: return "impossible";
    case TD_LIST_SIZE: return "listsize";
    case TD_ACTION: return "action";
    case TD_CONSTRAINT: return "constraint";
    case TD_PADDING: return "padding";
    default: return "none";
  }
}

#ifdef __cplusplus
}
#endif
#endif
