/* Rows of bytes turned into lines by unpacks of sixteen bytes, for the forms in C that are written for speed. */
#ifndef UNPACKS_H
#define UNPACKS_H

#include <stddef.h>
#include <stdint.h>

/* X is known in each copy of a function: taken into its callers, a call's X is a number there */
#define INSIDE static inline __attribute__((always_inline))

INSIDE size_t least(size_t a, size_t b)
{
    return a < b ? a : b;
}

#ifdef __SSE2__

#include <emmintrin.h>

typedef __m128i sixteen;

INSIDE sixteen load(const uint8_t *from)
{
    return _mm_loadu_si128((const void *)from);
}

INSIDE sixteen load_eight(const uint8_t *from)
{
    return _mm_loadl_epi64((const void *)from);
}

INSIDE void store(uint8_t *to, sixteen v)
{
    _mm_storeu_si128((void *)to, v);
}

INSIDE void store_low(uint8_t *to, sixteen v)
{
    _mm_storel_epi64((void *)to, v);
}

INSIDE void store_high(uint8_t *to, sixteen v)
{
    _mm_storeh_pd((void *)to, _mm_castsi128_pd(v));
}

INSIDE sixteen low(sixteen a, sixteen b)
{
    return _mm_unpacklo_epi8(a, b);
}

INSIDE sixteen high(sixteen a, sixteen b)
{
    return _mm_unpackhi_epi8(a, b);
}

/* so many perfect shuffles of 2 n vectors */
INSIDE void shuffle(sixteen *v, int n, int times)
{
    sixteen to[16];
    for (int k = 0; k < times; k++) {
        for (int i = 0; i < n; i++) {
            to[2 * i] = low(v[i], v[i + n]);
            to[2 * i + 1] = high(v[i], v[i + n]);
        }
        for (int i = 0; i < 2 * n; i++)
            v[i] = to[i];
    }
}

#endif
#endif
