/* Spreading and joining in C, written for speed on any x86-64 processor, whose vectors are the sixteen bytes of SSE2: rows
 * of bytes are turned into lines by unpacks. X 2, 4 and 8 go whole by unpacks (a spread of 2 and 4 by masks, shifts and packs);
 * X 3, 5, 6 and 7 as lines of four or eight columns, each stored over the last one's spill; X from 16 on by blocks of sixteen by
 * sixteen, the last one begun earlier. It is compiled by each C compiler at hand, with the names SPREAD and JOIN given on the
 * command line. On another processor plain loops stand for it.
 */
#include <string.h>

#include "unpacks.h"

uint8_t SPREAD(uint32_t x, uint32_t p, const uint8_t *frame, size_t frame_length, uint8_t *members, size_t members_length);
uint8_t JOIN(uint32_t x, uint32_t p, const uint8_t *members, size_t members_length, uint8_t *frame, size_t frame_length);

/* the lines from one on */
INSIDE void join_from(size_t from, size_t x, size_t p, const uint8_t *members, uint8_t *frame)
{
    for (size_t j = from; j < p; j++)
        for (size_t r = 0; r < x; r++)
            frame[j * x + r] = members[r * p + j];
}

INSIDE void spread_from(size_t from, size_t x, size_t p, const uint8_t *frame, uint8_t *members)
{
    for (size_t j = from; j < p; j++)
        for (size_t r = 0; r < x; r++)
            members[r * p + j] = frame[j * x + r];
}

#ifdef __SSE2__

/* sixteen rows that lie so far apart, to sixteen lines */
INSIDE void block(const uint8_t *rows, size_t apart, uint8_t *lines, size_t lines_apart)
{
    sixteen v[16];
    for (int i = 0; i < 16; i++)
        v[i] = load(rows + (size_t)i * apart);
    shuffle(v, 8, 4);
    for (int i = 0; i < 16; i++)
        store(lines + (size_t)i * lines_apart, v[i]);
}

/* n rows of m bytes, to m lines of n bytes, both sixteen at least; a tile of 64 lines at a time */
INSIDE void blocks(size_t n, size_t m, const uint8_t *rows, uint8_t *lines)
{
    for (size_t from = 0; from < m; from += 64) {
        size_t to = least(from + 64, m);
        for (size_t c = 0; c < n; c += 16) {
            size_t r = least(c, n - 16);
            for (size_t d = from; d < to; d += 16) {
                size_t j = least(d, m - 16);
                block(rows + r * m + j, m, lines + j * n + r, n);
            }
        }
    }
}

INSIDE size_t join_two(size_t p, const uint8_t *m, uint8_t *f)
{
    size_t j = 0;
    for (; j + 16 <= p; j += 16) {
        sixteen a = load(m + j), b = load(m + p + j);
        store(f + 2 * j, low(a, b));
        store(f + 2 * j + 16, high(a, b));
    }
    return j;
}

/* lines of four bytes, of which the last is the second again; three of each are moved together, two lines to eight bytes */
INSIDE size_t join_three(size_t p, const uint8_t *m, uint8_t *f)
{
    const sixteen first = _mm_set_epi32(0, 0xffffff, 0, 0xffffff), second = _mm_set_epi32(0xffffff, 0, 0xffffff, 0);
    size_t j = 0;
    for (; j + 17 <= p; j += 16) {
        sixteen v[4] = { load(m + j), load(m + p + j), load(m + 2 * p + j), load(m + p + j) };
        shuffle(v, 2, 2);
        for (size_t k = 0; k < 4; k++) {
            sixteen pair = _mm_or_si128(_mm_and_si128(v[k], first), _mm_srli_epi64(_mm_and_si128(v[k], second), 8));
            store_low(f + 3 * (j + 4 * k), pair);
            store_high(f + 3 * (j + 4 * k) + 6, pair);
        }
    }
    return j;
}

INSIDE size_t join_four(size_t p, const uint8_t *m, uint8_t *f)
{
    size_t j = 0;
    for (; j + 16 <= p; j += 16) {
        sixteen v[4];
        for (size_t i = 0; i < 4; i++)
            v[i] = load(m + i * p + j);
        shuffle(v, 2, 2);
        for (size_t i = 0; i < 4; i++)
            store(f + 4 * j + 16 * i, v[i]);
    }
    return j;
}

INSIDE size_t join_eight(size_t p, const uint8_t *m, uint8_t *f)
{
    size_t j = 0;
    for (; j + 16 <= p; j += 16) {
        sixteen v[8];
        for (size_t i = 0; i < 8; i++)
            v[i] = load(m + i * p + j);
        shuffle(v, 4, 3);
        for (size_t i = 0; i < 8; i++)
            store(f + 8 * j + 16 * i, v[i]);
    }
    return j;
}

/* five, six or seven: lines of eight bytes */
INSIDE size_t join_some(size_t x, size_t p, const uint8_t *m, uint8_t *f)
{
    size_t j = 0;
    for (; j + 18 <= p; j += 16) {
        sixteen v[8];
        for (size_t i = 0; i < 8; i++)
            v[i] = i < x ? load(m + i * p + j) : _mm_setzero_si128();
        shuffle(v, 4, 3);
        for (size_t i = 0; i < 8; i++) {
            store_low(f + x * (j + 2 * i), v[i]);
            store_high(f + x * (j + 2 * i + 1), v[i]);
        }
    }
    return j;
}

/* nine to fifteen: eight columns at a time */
INSIDE void join_by_eight(size_t x, size_t p, const uint8_t *m, uint8_t *f)
{
    for (size_t c = 0; c < p; c += 16)
        for (size_t d = 0; d < x; d += 8) {
            size_t j = least(c, p - 16), r = least(d, x - 8);
            sixteen v[8];
            for (size_t i = 0; i < 8; i++)
                v[i] = load(m + (r + i) * p + j);
            shuffle(v, 4, 3);
            for (size_t i = 0; i < 8; i++) {
                store_low(f + (j + 2 * i) * x + r, v[i]);
                store_high(f + (j + 2 * i + 1) * x + r, v[i]);
            }
        }
}

/* the even bytes of two vectors, and the odd ones */
INSIDE sixteen evens(sixteen a, sixteen b)
{
    const sixteen mask = _mm_set1_epi16(255);
    return _mm_packus_epi16(_mm_and_si128(a, mask), _mm_and_si128(b, mask));
}

INSIDE sixteen odds(sixteen a, sixteen b)
{
    return _mm_packus_epi16(_mm_srli_epi16(a, 8), _mm_srli_epi16(b, 8));
}

INSIDE size_t spread_two(size_t p, const uint8_t *f, uint8_t *m)
{
    size_t j = 0;
    for (; j + 16 <= p; j += 16) {
        sixteen a = load(f + 2 * j), b = load(f + 2 * j + 16);
        store(m + j, evens(a, b));
        store(m + p + j, odds(a, b));
    }
    return j;
}

INSIDE size_t spread_four(size_t p, const uint8_t *f, uint8_t *m)
{
    size_t j = 0;
    for (; j + 16 <= p; j += 16) {
        sixteen a = load(f + 4 * j), b = load(f + 4 * j + 16), c = load(f + 4 * j + 32), d = load(f + 4 * j + 48);
        store(m + j, evens(evens(a, b), evens(c, d)));
        store(m + p + j, evens(odds(a, b), odds(c, d)));
        store(m + 2 * p + j, odds(evens(a, b), evens(c, d)));
        store(m + 3 * p + j, odds(odds(a, b), odds(c, d)));
    }
    return j;
}

/* three to eight: sixteen lines of eight bytes, of which the last must not pass the end */
INSIDE size_t spread_some(size_t x, size_t p, const uint8_t *f, uint8_t *m)
{
    size_t j = 0;
    for (; j + (x == 3 ? 19 : 18) <= p; j += 16) {
        sixteen v[8];
        for (size_t i = 0; i < 8; i++)
            v[i] = low(load_eight(f + x * (j + i)), load_eight(f + x * (j + i + 8)));
        shuffle(v, 4, 3);
        for (size_t i = 0; i < x; i++)
            store(m + i * p + j, v[i]);
    }
    return j;
}

INSIDE void spread_by_eight(size_t x, size_t p, const uint8_t *f, uint8_t *m)
{
    for (size_t c = 0; c < p; c += 16)
        for (size_t d = 0; d < x; d += 8) {
            size_t j = least(c, p - 16), r = least(d, x - 8);
            sixteen v[8];
            for (size_t i = 0; i < 8; i++)
                v[i] = low(load_eight(f + (j + i) * x + r), load_eight(f + (j + i + 8) * x + r));
            shuffle(v, 4, 3);
            for (size_t i = 0; i < 8; i++)
                store(m + (r + i) * p + j, v[i]);
        }
}

static void spread(size_t x, size_t p, const uint8_t *f, uint8_t *m)
{
    switch (x) {
    case 2: spread_from(spread_two(p, f, m), 2, p, f, m); break;
    case 3: spread_from(spread_some(3, p, f, m), 3, p, f, m); break;
    case 4: spread_from(spread_four(p, f, m), 4, p, f, m); break;
    case 5: spread_from(spread_some(5, p, f, m), 5, p, f, m); break;
    case 6: spread_from(spread_some(6, p, f, m), 6, p, f, m); break;
    case 7: spread_from(spread_some(7, p, f, m), 7, p, f, m); break;
    case 8: spread_from(spread_some(8, p, f, m), 8, p, f, m); break;
    default:
        if (p < 16)
            spread_from(0, x, p, f, m);
        else if (x < 16)
            spread_by_eight(x, p, f, m);
        else
            blocks(p, x, f, m);
    }
}

static void join(size_t x, size_t p, const uint8_t *m, uint8_t *f)
{
    switch (x) {
    case 2: join_from(join_two(p, m, f), 2, p, m, f); break;
    case 3: join_from(join_three(p, m, f), 3, p, m, f); break;
    case 4: join_from(join_four(p, m, f), 4, p, m, f); break;
    case 5: join_from(join_some(5, p, m, f), 5, p, m, f); break;
    case 6: join_from(join_some(6, p, m, f), 6, p, m, f); break;
    case 7: join_from(join_some(7, p, m, f), 7, p, m, f); break;
    case 8: join_from(join_eight(p, m, f), 8, p, m, f); break;
    default:
        if (p < 16)
            join_from(0, x, p, m, f);
        else if (x < 16)
            join_by_eight(x, p, m, f);
        else
            blocks(x, p, m, f);
    }
}

#else

static void spread(size_t x, size_t p, const uint8_t *f, uint8_t *m)
{
    spread_from(0, x, p, f, m);
}

static void join(size_t x, size_t p, const uint8_t *m, uint8_t *f)
{
    join_from(0, x, p, m, f);
}

#endif

static uint8_t answer(size_t x, size_t p, size_t from, size_t to)
{
    if (x > 64 || p < 1 || p > 2340)
        return 4;
    return from == x * p && to == x * p ? 0 : 9;
}

uint8_t SPREAD(uint32_t x, uint32_t p, const uint8_t *frame, size_t frame_length, uint8_t *members, size_t members_length)
{
    uint8_t a = answer(x, p, frame_length, members_length);
    if (a != 0)
        return a;
    if (x == 1)
        memcpy(members, frame, p);
    else if (x > 1)
        spread(x, p, frame, members);
    return 0;
}

uint8_t JOIN(uint32_t x, uint32_t p, const uint8_t *members, size_t members_length, uint8_t *frame, size_t frame_length)
{
    uint8_t a = answer(x, p, members_length, frame_length);
    if (a != 0)
        return a;
    if (x == 1)
        memcpy(frame, members, p);
    else if (x > 1)
        join(x, p, members, frame);
    return 0;
}
