/* A plain switch loop over the code of the four formats, on the messages of `td bench N`: what bench/loop measures td against.
 *
 *     loop FILE N [made]
 *     loop FILE LENGTH code
 *
 * FILE has the code of the four formats in the order of docs/bench.md, as bench/loop writes it: the tables of an image in
 * decimal, and the lines of the listing that `td code` writes. The lines printed are those of `td bench N`. With `made` the
 * messages are made and not run. With `code` FILE has one code, which is run once over so many zero bytes, for bench/machine.
 * Compiled with COUNT, a further line tells how many steps were taken. What each instruction does stands in
 * docs/language/code.md. Nothing is verified here: the code is td's own.
 */
#include "made.h"
#include <inttypes.h>
#include <stdio.h>
#include <stdlib.h>

#ifdef COUNT
#define STEP(run) ((run)->steps++)
#else
#define STEP(run) ((void)0)
#endif

enum kind {
    CONST, MEMBER, OP, BITS, POS, JUMP, JUMP_IF, JUMP_UNLESS, CALL, RETURN, FETCH, SKIP_K, SKIP, REST, ZEROS, ZEROTERM, NARROW_K,
    NARROW, DIVIDES, WHILE, AGAIN, WIDEN, FAIL, GET, SET, MARK, LEFT, KINDS
};

/* The name of each kind, and its operands in the listing's order: x has 8 bits, a, b, c have 16, t and s (the site) 32, k 64. */
static const char *const NAMES[KINDS][2] = {
    {"Const", "ak"}, {"Member", "abt"}, {"Op", "axbc"}, {"Bits", "abxc"}, {"Pos", "a"}, {"Jump", "t"}, {"JumpIf", "bt"},
    {"JumpUnless", "bt"}, {"Call", "atks"}, {"Return", ""}, {"Fetch", "axcs"}, {"SkipK", "ks"}, {"Skip", "bs"}, {"Rest", ""},
    {"Zeros", "s"}, {"Zeroterm", "bcs"}, {"NarrowK", "ks"}, {"Narrow", "bs"}, {"Divides", "bks"}, {"While", "t"}, {"Again", "t"},
    {"Widen", "s"}, {"Fail", "xs"}, {"Get", "ac"}, {"Set", "bc"}, {"Mark", ""}, {"Left", "a"},
};

enum reason { NOT_ENOUGH, IMPOSSIBLE, LIST_SIZE, ACTION, CONSTRAINT, PADDING };

struct instruction {
    uint8_t kind, x;
    uint16_t a, b, c;
    uint32_t t, s;
    uint64_t k;
};

struct list {
    size_t count;
    uint64_t *items;
};

struct routine {
    size_t begin, params, cells, registers;
};

struct code {
    size_t sites, maps, sets, routines, instructions, entry;
    uint32_t (*site)[2];
    struct list *map, *set;
    struct routine *routine;
    struct instruction *instruction;
};

enum { MOST_BYTES = 4096, MOST_WORDS = MOST_BYTES / 8, MOST_LEVELS = 32, MOST_REGISTERS = 4096, MOST_CELLS = 64 };

struct frame {
    uint32_t type, field, reason, start;
};

struct store {
    uint64_t before, value;
    uint32_t word;
};

struct load {
    uint32_t word;
    uint64_t value;
};

/* A message in words to which others store by a plan, the loads so far, and the state of its run. */
struct run {
    const struct code *code;
    uint64_t words[MOST_WORDS];
    size_t count;
    struct store stores[1];
    size_t made;
    struct load loads[MOST_WORDS];
    size_t loaded;
    uint64_t cells[MOST_CELLS];
    uint32_t pos, failed_at, reason;
    struct frame trace[MOST_LEVELS];
    size_t frames;
    uint64_t steps;
};

static uint64_t load_word(struct run *run, uint32_t word)
{
    if (run->loaded > 0 && run->loads[run->loaded - 1].word == word)
        return run->loads[run->loaded - 1].value;
    while (run->made < 1 && run->stores[run->made].before <= run->loaded) {
        if (run->stores[run->made].word < run->count)
            run->words[run->stores[run->made].word] = run->stores[run->made].value;
        run->made++;
    }
    run->loads[run->loaded++] = (struct load){word, run->words[word]};
    return run->words[word];
}

static uint64_t fetch(struct run *run, unsigned width)
{
    unsigned from = run->pos % 8;
    uint64_t value = load_word(run, run->pos / 8) >> 8 * from;
    if (from + width > 8)
        value |= load_word(run, run->pos / 8 + 1) << 8 * (8 - from);
    run->pos += width;
    return width == 8 ? value : value & (((uint64_t)1 << 8 * width) - 1);
}

static uint64_t operate(unsigned operator, uint64_t m, uint64_t n)
{
    switch (operator) {
    case 0: return m + n;
    case 1: return m - n;
    case 2: return m * n;
    case 3: return n ? m / n : 0;
    case 4: return n ? m % n : 0;
    case 5: return m & n;
    case 6: return m | n;
    case 7: return m ^ n;
    case 8: return n < 64 ? m << n : 0;
    case 9: return n < 64 ? m >> n : 0;
    case 10: return m == n;
    case 11: return m != n;
    case 12: return m < n;
    default: return m <= n;
    }
}

static int is_member(const struct list *set, uint64_t value)
{
    size_t low = 0, high = set->count;
    while (low < high) {
        size_t middle = (low + high) / 2;
        if (set->items[middle] == value)
            return 1;
        if (set->items[middle] < value)
            low = middle + 1;
        else
            high = middle;
    }
    return 0;
}

static void add_frame(struct run *run, uint32_t site, uint32_t start)
{
    const uint32_t *names = run->code->site[site];
    run->trace[run->frames++] = (struct frame){names[0], names[1], run->reason, start};
}

static int fail(struct run *run, enum reason reason, uint32_t at, uint32_t site, uint32_t start)
{
    run->reason = reason;
    run->failed_at = at;
    add_frame(run, site, start);
    return 0;
}

/* Runs a routine from the run's position: whether it returned. `registers` has its arguments, and room for all that it calls. */
static int run_routine(struct run *run, size_t number, uint64_t *registers, const uint32_t *places, uint32_t end)
{
    const struct code *code = run->code;
    const struct routine *routine = &code->routine[number];
    const struct instruction *at = &code->instruction[routine->begin];
    uint64_t *r = registers;
    uint32_t start = run->pos, outer = end;
    memset(r + routine->params, 0, (routine->registers - routine->params) * sizeof *r);
    for (;; at++) {
        STEP(run);
        switch (at->kind) {
        case CONST: r[at->a] = at->k; break;
        case MEMBER: r[at->a] = is_member(&code->set[at->t], r[at->b]); break;
        case OP: r[at->a] = operate(at->x, r[at->b], r[at->c]); break;
        case BITS: r[at->a] = r[at->b] >> at->x & (at->c == 64 ? ~(uint64_t)0 : ((uint64_t)1 << at->c) - 1); break;
        case POS: r[at->a] = start; break;
        case LEFT: r[at->a] = end - run->pos; break;
        case JUMP: at = &code->instruction[at->t] - 1; break;
        case JUMP_IF: if (r[at->b]) at = &code->instruction[at->t] - 1; break;
        case JUMP_UNLESS: if (!r[at->b]) at = &code->instruction[at->t] - 1; break;
        case CALL: {
            const struct list *map = &code->map[at->k];
            uint64_t *callee = r + routine->registers;
            uint32_t own[MOST_CELLS];
            memcpy(callee, r + at->a, code->routine[at->t].params * sizeof *r);
            for (size_t k = 0; k < map->count; k++)
                own[k] = places[map->items[k]];
            if (!run_routine(run, at->t, callee, own, end)) {
                add_frame(run, at->s, start);
                return 0;
            }
            break;
        }
        case RETURN: return 1;
        case FETCH: {
            uint64_t value;
            if (end - run->pos < at->c)
                return fail(run, NOT_ENOUGH, start, at->s, start);
            value = fetch(run, at->c);
            r[at->a] = at->x ? __builtin_bswap64(value) >> (64 - 8 * at->c) : value;
            break;
        }
        case SKIP_K:
        case SKIP: {
            uint64_t count = at->kind == SKIP ? r[at->b] : at->k;
            if (end - run->pos < count)
                return fail(run, NOT_ENOUGH, start, at->s, start);
            run->pos += count;
            break;
        }
        case REST: run->pos = end; break;
        case ZEROS:
            for (; run->pos < end; run->pos++) {
                STEP(run);
                if (load_word(run, run->pos / 8) >> 8 * (run->pos % 8) & 255)
                    return fail(run, PADDING, run->pos, at->s, start);
            }
            break;
        case ZEROTERM: {
            uint64_t most = r[at->b] / at->c, room = (end - run->pos) / at->c, left = most < room ? most : room;
            for (;; left--) {
                if (left == 0)
                    return fail(run, most <= room ? CONSTRAINT : NOT_ENOUGH, start, at->s, start);
                STEP(run);
                if (fetch(run, at->c) == 0)
                    break;
            }
            break;
        }
        case NARROW_K:
        case NARROW: {
            uint64_t count = at->kind == NARROW ? r[at->b] : at->k;
            if (end - run->pos < count)
                return fail(run, NOT_ENOUGH, start, at->s, start);
            outer = end;
            end = run->pos + count;
            break;
        }
        case DIVIDES: if (r[at->b] % at->k) return fail(run, LIST_SIZE, start, at->s, start); break;
        case WHILE: if (run->pos == end) at = &code->instruction[at->t] - 1; break;
        case AGAIN: at = &code->instruction[at->t] - 1; break;
        case WIDEN:
            if (run->pos != end)
                return fail(run, LIST_SIZE, start, at->s, start);
            end = outer;
            break;
        case FAIL: return fail(run, at->x, start, at->s, start);
        case GET: r[at->a] = run->cells[places[at->c]]; break;
        case SET: run->cells[places[at->c]] = r[at->b]; break;
        case MARK: start = run->pos; break;
        }
    }
}

/* Lays a message out in words, each with its first byte lowest, and plans the store of its job. */
static void lay_out(struct run *run, const uint8_t *bytes, size_t length)
{
    run->count = (length + 7) / 8;
    for (size_t word = 0; word < run->count; word++) {
        uint64_t value = 0;
        for (size_t k = 8 * word; k < length && k < 8 * word + 8; k++)
            value |= (uint64_t)bytes[k] << 8 * (k % 8);
        run->words[word] = value;
    }
    run->stores[0] = (struct store){1, ~(uint64_t)0, 0};
    run->made = run->loaded = run->frames = 0;
    run->pos = 0;
}

/* (never inlined, so that its instructions can be counted) */
__attribute__((noinline)) static int run_message(struct run *run, const struct code *code, size_t length, int has_length)
{
    static uint64_t registers[MOST_REGISTERS];
    static uint32_t places[MOST_CELLS];
    size_t cells = code->routine[code->entry].cells;
    for (size_t k = 0; k < cells; k++)
        places[k] = k;
    memset(run->cells, 0, cells * sizeof *run->cells);
    run->code = code;
    if (has_length)
        registers[0] = length;
    return run_routine(run, code->entry, registers, places, length);
}

/* ---- The file of the codes. */

static uint64_t number_in(FILE *file)
{
    uint64_t number;
    if (fscanf(file, "%" SCNu64, &number) != 1) {
        fprintf(stderr, "loop: a number is missing\n");
        exit(1);
    }
    return number;
}

static void *room(size_t count, size_t size)
{
    void *found = calloc(count + 1, size);
    if (!found)
        exit(1);
    return found;
}

static struct list *lists_in(FILE *file, size_t count)
{
    struct list *lists = room(count, sizeof *lists);
    for (size_t k = 0; k < count; k++) {
        lists[k].count = number_in(file);
        lists[k].items = room(lists[k].count, sizeof *lists[k].items);
        for (size_t n = 0; n < lists[k].count; n++)
            lists[k].items[n] = number_in(file);
    }
    return lists;
}

static struct instruction instruction_in(FILE *file)
{
    struct instruction found = {0};
    char name[16];
    number_in(file);
    if (fscanf(file, "%15s", name) != 1)
        exit(1);
    while (strcmp(NAMES[found.kind][0], name) != 0)
        if (++found.kind == KINDS) {
            fprintf(stderr, "loop: no instruction is named %s\n", name);
            exit(1);
        }
    for (const char *field = NAMES[found.kind][1]; *field; field++) {
        uint64_t value = number_in(file);
        switch (*field) {
        case 'x': found.x = value; break;
        case 'a': found.a = value; break;
        case 'b': found.b = value; break;
        case 'c': found.c = value; break;
        case 't': found.t = value; break;
        case 's': found.s = value; break;
        default: found.k = value;
        }
    }
    return found;
}

static struct code code_in(FILE *file)
{
    struct code code = {0};
    code.entry = number_in(file);
    code.sites = number_in(file);
    code.site = room(code.sites, sizeof *code.site);
    for (size_t k = 0; k < code.sites; k++) {
        code.site[k][0] = number_in(file);
        code.site[k][1] = number_in(file);
    }
    code.maps = number_in(file);
    code.map = lists_in(file, code.maps);
    code.sets = number_in(file);
    code.set = lists_in(file, code.sets);
    code.routines = number_in(file);
    code.routine = room(code.routines, sizeof *code.routine);
    for (size_t k = 0, begin = 0; k < code.routines; k++) {
        struct routine *routine = &code.routine[k];
        routine->begin = begin;
        routine->params = number_in(file);
        routine->cells = number_in(file);
        routine->registers = number_in(file);
        begin += number_in(file);
    }
    code.instructions = number_in(file);
    code.instruction = room(code.instructions, sizeof *code.instruction);
    for (size_t k = 0; k < code.instructions; k++)
        code.instruction[k] = instruction_in(file);
    return code;
}

/* Runs a code once over zero bytes. */
static int run_code(FILE *file, size_t length)
{
    static struct run run;
    static const uint8_t bytes[MOST_BYTES];
    struct code code = code_in(file);
    lay_out(&run, bytes, length);
    int is_accepted = run_message(&run, &code, length, 0);
    printf("%s %" PRIu32 "\n", is_accepted ? "accept" : "reject", is_accepted ? run.pos : run.failed_at);
    return 0;
}

int main(int count, char **words)
{
    static struct run run;
    static uint8_t bytes[MOST_BYTES];
    struct code codes[4];
    uint64_t accepted = 0, rejected = 0, sum = 0, loads = 0;
    FILE *file = count >= 3 ? fopen(words[1], "r") : NULL;
    if (!file) {
        fprintf(stderr, "usage: loop FILE N [made], or loop FILE LENGTH code\n");
        return 2;
    }
    if (count > 3 && strcmp(words[3], "code") == 0)
        return run_code(file, strtoul(words[2], NULL, 10));
    for (int k = 0; k < 4; k++)
        codes[k] = code_in(file);
    fclose(file);
    uint32_t most = strtoul(words[2], NULL, 10);
    int is_made = count > 3 && strcmp(words[3], "made") == 0;
    for (uint32_t n = 0; n < most; n++) {
        size_t length = make_message(n, bytes);
        lay_out(&run, bytes, length);
        if (is_made) {
            sum += run.words[run.count - 1];
            continue;
        }
        if (run_message(&run, &codes[n % 4], length, n % 4 != 0)) {
            accepted++;
            sum += run.pos;
        } else {
            rejected++;
        }
        loads += run.loaded;
    }
    printf("messages %" PRIu32 "\naccepted %" PRIu64 "\nrejected %" PRIu64 "\n", most, accepted, rejected);
    printf("bytes %" PRIu64 "\nloads %" PRIu64 "\n", sum, loads);
#ifdef COUNT
    printf("steps %" PRIu64 "\n", run.steps);
#endif
    return 0;
}
