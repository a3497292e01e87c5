/* Times the spoken board's calls on boards of 64 slots of which none, one or all have changed. A line for each call: the
 * median of the rounds in nanoseconds a call. */
#define _POSIX_C_SOURCE 199309L
#include "levelspruce.h"
#include <stdio.h>
#include <string.h>

#include "times.h"

enum { ROUNDS = 101, CALLS = 200, SLOTS = LEVELSPRUCE_SLOTS_MOST };

static uint8_t before[LEVELSPRUCE_BOARD_BYTES], after[LEVELSPRUCE_BOARD_BYTES], there[LEVELSPRUCE_CHANGES_BYTES], back[LEVELSPRUCE_CHANGES_BYTES];
static uint8_t held[LEVELSPRUCE_BOARD_BYTES], text[LEVELSPRUCE_SPEECH_BYTES];
static size_t written;

static uint8_t changes(int i)
{
    return i % 2 == 0 ? levelspruce_board_changes(before, sizeof before, after, sizeof after, there, sizeof there)
                      : levelspruce_board_changes(after, sizeof after, before, sizeof before, back, sizeof back);
}

/* there and back again, so that each list fits */
static uint8_t apply(int i)
{
    return levelspruce_board_apply(held, sizeof held, i % 2 == 0 ? there : back, sizeof there);
}

static uint8_t speak(int i)
{
    return levelspruce_board_speak(i % 2 == 0 ? there : back, sizeof there, text, sizeof text, &written);
}

static void measure(const char *name, uint8_t (*call)(int), int changed)
{
    double times[ROUNDS];

    for (int r = 0; r < ROUNDS; r++) {
        double begun = now(CLOCK_MONOTONIC);

        for (int i = 0; i < CALLS; i++)
            if (call(i) != 0)
                exit(1);
        times[r] = (now(CLOCK_MONOTONIC) - begun) / CALLS;
    }
    printf("board %s\tslots\t%d\tchanged\t%d\tproved ns\t%.0f\n", name, SLOTS, changed, median(times, ROUNDS));
}

int main(void)
{
    static const int some[] = { 0, 1, SLOTS };

    for (size_t n = 0; n < sizeof some / sizeof *some; n++) {
        memset(before, LEVELSPRUCE_WORD_NORM, sizeof before);
        before[LEVELSPRUCE_BOARD_COUNT] = SLOTS;
        before[LEVELSPRUCE_BOARD_WAIT] = 0;
        memcpy(after, before, sizeof after);
        for (int i = 0; i < some[n]; i++)
            after[LEVELSPRUCE_BOARD_ROWS + 2 * i] = LEVELSPRUCE_WORD_DNU;
        memcpy(held, before, sizeof held);
        measure("changes", changes, some[n]);
        measure("apply", apply, some[n]);
        measure("speak", speak, some[n]);
    }
    return memcmp(held, before, sizeof held) != 0;
}
