/*
 * Tests of the planner and of its check over the archive: worked examples, every refusal alone and beside a wrong length,
 * that a refusal changes no byte, and what is proposed or one step from it put to the check.
 */
#include <levelspruce.h>

#include <string.h>

#include "check.h"

enum { LENT_MOST = 80 };
#include "lent.h"

static struct lent lent;

static const uint32_t four[4] = { 0, 100, 16, 20 };

/* What is proposed is these candidates, the rest is 255, and nothing beside the plan is written. */
static int proposes(const uint32_t *delays, size_t n, uint32_t k, uint32_t window, const char *numbers)
{
    const uint8_t *plan = lent_bytes(&lent);
    size_t i, count = strlen(numbers);
    int held;

    lend(&lent, NULL, 0);
    held = levelspruce_paths_plan(delays, n, k, window, lent_bytes(&lent), LEVELSPRUCE_PLAN_BYTES) == LEVELSPRUCE_ANSWER_DONE
        && stands(&lent, LEVELSPRUCE_PLAN_BYTES) && plan[LEVELSPRUCE_PLAN_COUNT] == count;
    for (i = 0; i < LEVELSPRUCE_PATHS_MOST; i++)
        held = held && plan[LEVELSPRUCE_PLAN_EACH + i] == (i < count ? (uint8_t)(numbers[i] - '0') : LEVELSPRUCE_PATH_NONE);
    return held;
}

/* The check's verdict, or 2 where its answer is not 0 or a byte beside it is written. */
static int verdict(const uint32_t *delays, size_t n, uint32_t k, uint32_t window, const uint8_t *set, size_t length)
{
    lend(&lent, NULL, 0);
    if (levelspruce_paths_check(delays, n, k, window, set, length, lent_bytes(&lent), 1) != LEVELSPRUCE_ANSWER_DONE || !stands(&lent, 1))
        return 2;
    return lent_bytes(&lent)[0];
}

/* Both calls give this answer with results of these lengths, and write nothing. */
static int refused(const uint32_t *delays, size_t n, uint32_t k, uint32_t window, size_t plan, size_t accepted, uint8_t answer)
{
    static const uint8_t set[2] = { 2, 3 };
    int held;

    lend(&lent, NULL, 0);
    held = levelspruce_paths_plan(delays, n, k, window, lent_bytes(&lent), plan) == answer && untouched(&lent);
    return held && levelspruce_paths_check(delays, n, k, window, set, sizeof set, lent_bytes(&lent), accepted) == answer && untouched(&lent);
}

static void plans(void)
{
    static const uint32_t ends[2] = { 4095, 0 }, equal[3] = { 7, 7, 7 };

    check("no two of 0 100 16 20 are equal", proposes(four, 4, 2, 16, ""));
    check("4 frames apart with W 20", proposes(four, 4, 2, 20, "23"));
    check("the tightest set, not the earliest", proposes(four, 4, 2, 32, "23"));
    check("three with W 36", proposes(four, 4, 3, 36, "023"));
    check("none of three with W 35", proposes(four, 4, 3, 35, ""));
    check("4,095 and 0 are not 1 apart", proposes(ends, 2, 2, 2048, ""));
    check("one path is always to be had", proposes(four, 4, 1, 16, "0"));
    check("of equal delays the lower numbers", proposes(equal, 3, 2, 16, "01"));
}

static void checks(void)
{
    static const uint8_t back[2] = { 3, 2 }, twice[2] = { 2, 2 }, strange[2] = { 2, 64 }, three[3] = { 2, 3, 0 }, far[2] = { 1, 2 };
    static const uint8_t beyond[] = { 4, 5, 63, 64, 255 };
    static const uint32_t steps[3] = { 0, 10, 20 };
    static const uint8_t all[3] = { 0, 1, 2 };
    size_t i;
    int held = 1;

    check("a good set in another order is accepted", verdict(four, 4, 2, 20, back, 2) == 1);
    check("a candidate twice is not", verdict(four, 4, 2, 20, twice, 2) == 0);
    check("one entry too few is not", verdict(four, 4, 2, 20, back, 1) == 0 && verdict(four, 4, 2, 20, NULL, 0) == 0);
    check("one too many is not", verdict(four, 4, 2, 36, three, 3) == 0 && verdict(four, 4, 3, 36, three, 3) == 1);
    /* beside the candidate with delay 0, so that no spread refuses it */
    for (i = 0; i < COUNT(beyond); i++)
        held = held && verdict(four, 4, 2, 2048, (const uint8_t[]){ 0, beyond[i] }, 2) == 0
            && verdict(four, 4, 2, 2048, (const uint8_t[]){ beyond[i], 0 }, 2) == 0;
    check("a number of no candidate is not", held && verdict(four, 4, 2, 20, strange, 2) == 0);
    check("a spread above W-16 is not", verdict(four, 4, 2, 99, far, 2) == 0 && verdict(four, 4, 2, 100, far, 2) == 1);
    check("neighbours are near, the ends are not", verdict(steps, 3, 3, 26, all, 3) == 0 && verdict(steps, 3, 3, 36, all, 3) == 1);
}

static void refusals(void)
{
    static const uint32_t wide[] = { 65, 256, 65536, 65538, 0x80000000u, 0xFFFFFFFFu };
    static const uint32_t outside[] = { 0, 15, 2049, 4096, 65552, 0x80000010u, 0xFFFFFFFFu };
    static const uint32_t late[] = { 4096, 4097, 65536, 70000, 0x80000000u, 0xFFFFFFFFu };
    uint32_t many[65] = { 0 }, one[3] = { 5, 5, 5 };
    size_t i, at;
    int held = 1;

    for (i = 0; i < COUNT(wide); i++)
        held = held && refused(four, 4, wide[i], 32, 65, 1, LEVELSPRUCE_ANSWER_RANGE);
    check("k of 0 or above the candidates is 4",
          held && refused(four, 4, 0, 32, 65, 1, LEVELSPRUCE_ANSWER_RANGE) && refused(four, 4, 5, 32, 65, 1, LEVELSPRUCE_ANSWER_RANGE));
    check("no candidate is 4", refused(NULL, 0, 0, 32, 65, 1, LEVELSPRUCE_ANSWER_RANGE) && refused(NULL, 0, 1, 32, 65, 1, LEVELSPRUCE_ANSWER_RANGE));
    check("65 candidates are 4, 64 are planned", refused(many, 65, 2, 32, 65, 1, LEVELSPRUCE_ANSWER_RANGE) && proposes(many, 64, 2, 16, "01"));
    for (held = 1, i = 0; i < COUNT(outside); i++)
        held = held && refused(four, 4, 2, outside[i], 65, 1, LEVELSPRUCE_ANSWER_RANGE);
    check("W outside 16 to 2,048 is 4", held);
    for (held = 1, i = 0; i < COUNT(late); i++)
        for (at = 0; at < 3; at++) {
            one[at] = late[i];
            held = held && refused(one, 3, 1, 32, 65, 1, LEVELSPRUCE_ANSWER_RANGE);
            one[at] = 5;
        }
    check("a delay above 4,095 is 4, also of a path that would not be chosen", held);
    check("another length of the result is 9", refused(four, 4, 2, 32, 64, 0, LEVELSPRUCE_ANSWER_LENGTH)
                                                   && refused(four, 4, 2, 32, 66, 2, LEVELSPRUCE_ANSWER_LENGTH)
                                                   && refused(four, 4, 2, 32, 0, 65, LEVELSPRUCE_ANSWER_LENGTH));
    check("4 comes before 9", refused(four, 4, 0, 32, 64, 0, LEVELSPRUCE_ANSWER_RANGE) && refused(many, 65, 2, 32, 66, 2, LEVELSPRUCE_ANSWER_RANGE)
                                  && refused(four, 4, 2, 15, 0, 0, LEVELSPRUCE_ANSWER_RANGE));
}

/* What is proposed is accepted; with W one less than its spread wants there is none. */
static void edges(void)
{
    uint32_t delays[LEVELSPRUCE_PATHS_MOST], k, window, seed = 9;
    const uint8_t *plan = lent_bytes(&lent);
    uint8_t set[LEVELSPRUCE_PATHS_MOST];
    size_t n, i;
    int held = 1;

    for (n = 1; n <= LEVELSPRUCE_PATHS_MOST; n++)
        for (k = 1; k <= n; k += 1 + (uint32_t)n / 8) {
            for (i = 0; i < n; i++, seed = seed * 1664525u + 1013904223u)
                delays[i] = (seed >> 16) % 1500;
            for (window = 16; window <= 2048; window++) {
                lend(&lent, NULL, 0);
                held = held && levelspruce_paths_plan(delays, n, k, window, lent_bytes(&lent), LEVELSPRUCE_PLAN_BYTES) == 0;
                if (plan[LEVELSPRUCE_PLAN_COUNT] != 0)
                    break;
            }
            memcpy(set, plan + LEVELSPRUCE_PLAN_EACH, sizeof set);
            held = held && plan[LEVELSPRUCE_PLAN_COUNT] == k && verdict(delays, n, k, window, set, k) == 1
                && (window == 16 || verdict(delays, n, k, window - 1, set, k) == 0);
        }
    check("the first window with a plan is the spread and 16", held);
}

int main(void)
{
    plans();
    checks();
    refusals();
    edges();
    return tally();
}
