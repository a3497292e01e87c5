/* Buffers to lend to a call, with guard bytes on both sides, and a memory of how each was lent. A test that includes this
 * has said before how many bytes it lends at most: LENT_MOST. */
#ifndef LENT_H
#define LENT_H

#include <stddef.h>
#include <stdint.h>
#include <string.h>

enum { GUARD = 32, LENT_AREA = GUARD + LENT_MOST + GUARD };

struct lent {
    uint8_t now[LENT_AREA], before[LENT_AREA];
};

static inline uint8_t *lent_bytes(struct lent *l)
{
    return l->now + GUARD;
}

static inline void remember(struct lent *l)
{
    memcpy(l->before, l->now, sizeof l->now);
}

/* Starts with bytes, and fills all the rest with a pattern that no packet has. */
static inline void lend(struct lent *l, const uint8_t *bytes, size_t length)
{
    size_t i;

    for (i = 0; i < sizeof l->now; i++)
        l->now[i] = (uint8_t)(0xA5 ^ (7 * i));
    if (length > 0)
        memcpy(lent_bytes(l), bytes, length);
    remember(l);
}

/* Any bytes, the same for the same seed. */
static inline void noise(uint8_t *bytes, size_t n, uint32_t seed)
{
    size_t i;

    for (i = 0, seed *= 2654435761u; i < n; i++, seed = seed * 1664525u + 1013904223u)
        bytes[i] = (uint8_t)(seed >> 24);
}

/* No byte outside the first n lent ones changed; with n of 0, none at all. */
static inline int stands(const struct lent *l, size_t n)
{
    size_t after = GUARD + n;

    return memcmp(l->now, l->before, GUARD) == 0 && memcmp(l->now + after, l->before + after, sizeof l->now - after) == 0;
}

static inline int untouched(const struct lent *l)
{
    return stands(l, 0);
}

#endif
