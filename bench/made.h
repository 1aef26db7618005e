/* The messages of docs/bench.md, made by number. */
#ifndef MADE_H
#define MADE_H
#include <stddef.h>
#include <stdint.h>
#include <string.h>

static size_t put(uint8_t *bytes, size_t at, const void *from, size_t count)
{
    memcpy(bytes + at, from, count);
    return at + count;
}

static size_t fill(uint8_t *bytes, size_t at, size_t count, uint32_t n)
{
    for (size_t end = at + count; at < end; at++)
        bytes[at] = 31 * n + 7 * at;
    return at;
}

static size_t put_number(uint8_t *bytes, size_t at, uint32_t number)
{
    const uint8_t four[4] = {number, number >> 8, number >> 16, number >> 24};
    return put(bytes, at, four, 4);
}

/* Makes message n: how many bytes it has. */
static size_t make_message(uint32_t n, uint8_t *bytes)
{
    uint32_t payload = 13 * (n / 4) % 1400;
    size_t at = 0;
    switch (n % 4) {
    case 0:
        at = put(bytes, fill(bytes, at, 12, n), "\x08\x00", 2);
        break;
    case 1: {
        const uint8_t head[4] = {0x45, 0, (20 + payload) >> 8, 20 + payload};
        at = put(bytes, put(bytes, at, head, 4), "\0\0\0\0\x40\x06\0\0", 8);
        at = fill(bytes, at, 8, n);
        break;
    }
    case 2:
        at = put(bytes, fill(bytes, at, 12, n), "\x60\x02\xff\xff\0\0\0\0\x02\x04\x05\xb4", 12);
        break;
    default:
        at = put_number(bytes, at, 1);
        at = put_number(bytes, at, 44 + payload);
        at = put_number(bytes, at, 36);
        at = put_number(bytes, at, payload);
        for (int k = 0; k < 7; k++)
            at = put_number(bytes, at, 0);
    }
    return fill(bytes, at, payload, n);
}
#endif
