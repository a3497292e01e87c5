/* Times spreading and joining of the proved code beside C that is written for speed (reference.c), by each compiler at hand, one after the
 * other in one process, round by round. A line for each size: the medians of the rounds in nanoseconds a call, and the ratio to the better
 * compiler's. The last lines are the greatest ratios. Before timing, all forms are held to the rule at every X and many P, and to leaving
 * alone what lies behind the output. With X of 1 the C library's memcpy stands beside them.
 */
#define _POSIX_C_SOURCE 199309L
#include "levelspruce.h"
#include <stdio.h>
#include <string.h>

#include "times.h"

typedef uint8_t call(uint32_t x, uint32_t p, const uint8_t *from, size_t from_length, uint8_t *to, size_t to_length);

call gcc_spread, gcc_join;
#ifdef CLANG
call clang_spread, clang_join;
#endif

/* bounds no length, or the compiler makes its own loop of memcpy and does not call the library's */
static uint8_t by_memcpy(uint32_t x, uint32_t p, const uint8_t *from, size_t from_length, uint8_t *to, size_t to_length)
{
    size_t n = (size_t)x * p;
    if (from_length != n || to_length != n)
        return 9;
    memcpy(to, from, n);
    return 0;
}

struct form {
    const char *name;
    call *spread, *join;
};

static const struct form forms[] = {
    { "proved", levelspruce_spread, levelspruce_join },
    { "gcc", gcc_spread, gcc_join },
#ifdef CLANG
    { "clang", clang_spread, clang_join },
#endif
    { "memcpy", by_memcpy, by_memcpy }, /* the last: for X of 1 alone */
};

enum { FORMS = sizeof forms / sizeof *forms, ROUNDS = 101, MOST = 64 * 2340, BYTES_A_ROUND = 400000, BEHIND = 64, UNTOUCHED = 0xA5 };

static uint8_t from[MOST], to[MOST + BEHIND]; /* one output for all forms: where it lies can change their speed */

static call *form_of(int i, int join)
{
    return join ? forms[i].join : forms[i].spread;
}

static int is_right(int join, uint32_t x, uint32_t p)
{
    size_t n = (size_t)x * p;
    for (size_t k = 0; k < n; k++)
        if (join ? to[k] != from[k % x * p + k / x] : to[k % x * p + k / x] != from[k])
            return 0;
    for (size_t k = 0; k < BEHIND; k++)
        if (to[n + k] != UNTOUCHED)
            return 0;
    return 1;
}

static void hold_to_rule(int join, uint32_t x, uint32_t p)
{
    size_t n = (size_t)x * p;
    for (int i = 0; i < FORMS - 1; i++) {
        memset(to, UNTOUCHED, n + BEHIND);
        if (form_of(i, join)(x, p, from, n, to, n) != 0 || !is_right(join, x, p)) {
            printf("failed\t%s of X %u P %u by %s\n", join ? "join" : "spread", (unsigned)x, (unsigned)p, forms[i].name);
            exit(1);
        }
    }
}

/* every X, with each P up to 140 and some longer ones, 2,340 the last */
static void hold_all(void)
{
    for (int join = 0; join < 2; join++)
        for (uint32_t x = 0; x <= 64; x++)
            for (uint32_t p = 1; p <= 2340; p += p < 140 ? 1 : 110)
                hold_to_rule(join, x, p);
}

/* nanoseconds a call, one round of calls */
static double round_of(call *f, uint32_t x, uint32_t p)
{
    size_t n = (size_t)x * p, calls = BYTES_A_ROUND / n + 1;
    double begun = now(CLOCK_MONOTONIC);
    for (size_t i = 0; i < calls; i++)
        if (f(x, p, from, n, to, n) != 0)
            exit(1);
    return (now(CLOCK_MONOTONIC) - begun) / (double)calls;
}

/* the ratio to the better compiler's */
static double measure(int join, uint32_t x, uint32_t p)
{
    static double times[FORMS][ROUNDS];
    double medians[FORMS], better = 0;
    int count = x == 1 ? FORMS : FORMS - 1;
    hold_to_rule(join, x, p);
    for (int k = 0; k < ROUNDS; k++)
        for (int i = 0; i < count; i++)
            times[i][k] = round_of(form_of(i, join), x, p);
    printf("%s\tX %u\tP %u", join ? "join" : "spread", (unsigned)x, (unsigned)p);
    for (int i = 0; i < count; i++) {
        medians[i] = median(times[i], ROUNDS);
        if (i == 1 || (1 < i && i < FORMS - 1 && medians[i] < better))
            better = medians[i];
        printf("\t%s %.0f ns", forms[i].name, medians[i]);
    }
    printf("\tto the better %.2f", medians[0] / better);
    if (x == 1)
        printf("\tto memcpy %.2f", medians[0] / medians[FORMS - 1]);
    putchar('\n');
    fflush(stdout);
    return medians[0] / better;
}

int main(void)
{
    static const uint32_t counts[] = { 1, 2, 3, 4, 5, 6, 7, 8, 16, 32, 63, 64 }, payloads[] = { 136, 756, 2340 };
    uint32_t seed = 1;
    for (size_t i = 0; i < MOST; i++) {
        seed = seed * 1664525 + 1013904223;
        from[i] = (uint8_t)(seed >> 24);
    }
    hold_all();
    for (int join = 0; join < 2; join++) {
        double greatest = 0, of_two_and_four = 0;
        for (int j = 0; j < 3; j++)
            for (size_t i = 0; i < sizeof counts / sizeof *counts; i++) {
                double ratio = measure(join, counts[i], payloads[j]);
                double *worst = join && (counts[i] == 2 || counts[i] == 4) ? &of_two_and_four : &greatest;
                if (ratio > *worst)
                    *worst = ratio;
            }
        if (join)
            printf("greatest ratio\tjoin of X 2 and 4\tto the better %.2f\n", of_two_and_four);
        printf("greatest ratio\t%s\tto the better %.2f\n", join ? "join, all other X" : "spread", greatest);
    }
    return 0;
}
