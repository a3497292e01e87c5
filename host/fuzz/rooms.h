/*
 * What the programs for libFuzzer share. The input is a program of calls, with any numbers, lengths and state bytes.
 * Every buffer has just the length that is lent. The archive has no sanitizer inside it, so a buffer is lent at the very
 * start or the very end of pages whose neighbours are shut: a touch beside it ends the run, and on its other side stand
 * guard bytes. What a call may change, and by which answer, is checked after each.
 */
#ifndef ROOMS_H
#define ROOMS_H

#include <stdint.h>
#include <stdio.h>
#include <stdlib.h>
#include <string.h>
#include <sys/mman.h>

int LLVMFuzzerTestOneInput(const uint8_t *data, size_t size);

/* The program: what is left of the input. Past its end all bytes are 0. */
struct program {
    const uint8_t *at, *end;
};

static uint32_t byte_of(struct program *g)
{
    return g->at < g->end ? *g->at++ : 0;
}

/* Any number, more often a small one. */
static inline uint32_t number_of(struct program *g)
{
    uint32_t first = byte_of(g);

    if (first < 250)
        return first;
    return first < 254 ? byte_of(g) << 8 | byte_of(g) : 0xFFFFFF00u | byte_of(g);
}

static void fail(const char *what)
{
    fprintf(stderr, "%s\n", what);
    abort();
}

enum { STATE, STORE, PAYLOAD, OUT, RESULT, ROOMS };
enum { GUARD = 16, GUARD_BYTE = 0xA7, OPEN = 1 << 16 };

static uint8_t *rooms[ROOMS], before[ROOMS][OPEN];
static unsigned turn; /* a buffer stands at the start and at the end of its room by turns */

static void open_rooms(void)
{
    int i;

    for (i = 0; i < ROOMS && rooms[i] == NULL; i++) {
        rooms[i] = mmap(NULL, 3 * OPEN, PROT_NONE, MAP_PRIVATE | MAP_ANONYMOUS, -1, 0);
        if ((void *)rooms[i] == MAP_FAILED || mprotect(rooms[i] + OPEN, OPEN, PROT_READ | PROT_WRITE) != 0)
            fail("no pages with shut neighbours");
        rooms[i] += OPEN;
    }
}

/* Bytes that the host keeps between calls. */
struct kept {
    uint8_t *bytes;
    size_t length;
};

static struct kept keep(size_t length)
{
    struct kept k = { calloc(length ? length : 1, 1), length };

    if (k.bytes == NULL)
        fail("no memory");
    return k;
}

/* A buffer in its room. */
struct block {
    uint8_t *bytes;
    size_t length;
    int room, at_end;
};

/* Lends the first bytes of what is kept, with zeros after them if it is too short. */
static struct block lend(int room, struct kept from, size_t length)
{
    struct block b = { rooms[room], length, room, (int)(turn++ % 2) };
    size_t some = length < from.length ? length : from.length;

    if (length > OPEN - GUARD)
        fail("too long to lend");
    if (b.at_end)
        b.bytes += OPEN - length;
    memset(b.at_end ? b.bytes - GUARD : b.bytes + length, GUARD_BYTE, GUARD);
    if (some)
        memcpy(b.bytes, from.bytes, some);
    memset(b.bytes + some, 0, length - some);
    memcpy(before[room], b.bytes, length);
    return b;
}

/* Only the first 'may' bytes changed, and none beside the buffer. */
static void stands(struct block b, size_t may, const char *what)
{
    const uint8_t *guard = b.at_end ? b.bytes - GUARD : b.bytes + b.length;
    int i;

    for (i = 0; i < GUARD; i++)
        if (guard[i] != GUARD_BYTE)
            fail("a byte beside a buffer changed");
    if (memcmp(b.bytes + may, before[b.room] + may, b.length - may) != 0)
        fail(what);
}

/* What is kept takes the bytes back. */
static void put_back(struct kept k, struct block b)
{
    size_t some = k.length < b.length ? k.length : b.length;

    if (some)
        memcpy(k.bytes, b.bytes, some);
}

static inline void fill(uint8_t *bytes, size_t length, uint32_t seed)
{
    size_t i;

    for (i = 0; i < length; i++, seed = seed * 1664525u + 1013904223u)
        bytes[i] = (uint8_t)(seed >> 24);
}

/* A length that is right, or off by a little. */
static size_t about(struct program *g, size_t right)
{
    uint32_t off = byte_of(g);

    if (off < 240)
        return right;
    return off < 248 ? right + (off - 239) : right > off - 247 ? right - (off - 247) : 0;
}

#endif
