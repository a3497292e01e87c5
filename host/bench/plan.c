/* Times a plan of 64 paths and the check of what it proposes. A line for each k: the median of the rounds in nanoseconds a
 * call. */
#define _POSIX_C_SOURCE 199309L
#include "levelspruce.h"
#include <stdio.h>

#include "times.h"

enum { ROUNDS = 101, CALLS = 200 };

static uint32_t delays[LEVELSPRUCE_PATHS_MOST];
static uint8_t plan[LEVELSPRUCE_PLAN_BYTES], accepted[1];

/* nanoseconds a call, one round of calls */
static double round_of(int check, uint32_t k)
{
    double begun = now(CLOCK_MONOTONIC);

    for (int i = 0; i < CALLS; i++)
        if ((check ? levelspruce_paths_check(delays, LEVELSPRUCE_PATHS_MOST, k, LEVELSPRUCE_WINDOW_MOST, plan + LEVELSPRUCE_PLAN_EACH, k, accepted, 1)
                   : levelspruce_paths_plan(delays, LEVELSPRUCE_PATHS_MOST, k, LEVELSPRUCE_WINDOW_MOST, plan, sizeof plan))
            != 0)
            exit(1);
    return (now(CLOCK_MONOTONIC) - begun) / CALLS;
}

static void measure(const char *name, int check, uint32_t k)
{
    double times[ROUNDS];

    for (int i = 0; i < ROUNDS; i++)
        times[i] = round_of(check, k);
    printf("%s\tpaths\t%d\tk\t%d\tproved ns\t%.0f\n", name, LEVELSPRUCE_PATHS_MOST, (int)k, median(times, ROUNDS));
}

int main(void)
{
    static const uint32_t ks[] = { 1, 32, 64 };
    uint32_t seed = 9;

    for (int i = 0; i < LEVELSPRUCE_PATHS_MOST; i++, seed = seed * 1664525u + 1013904223u)
        delays[i] = (seed >> 16) % 2000;
    for (size_t i = 0; i < sizeof ks / sizeof *ks; i++) {
        measure("plan", 0, ks[i]);
        measure("check of a plan", 1, ks[i]);
    }
    return accepted[0] != 1;
}
