/*
 * Which paths to join: reads how many and with which window, then the candidates with their measured delays, a line each,
 * and prints the ones that the planner proposes; or with --check whether the paths that a proposal takes may be joined
 * (docs/MANUAL.md, 'Choosing paths').
 *
 *   join    3    window    64
 *   path    NAME    delay    17
 *   take    NAME
 *
 * Fields are parted by tabs. Status 0: a plan, or a proposal that is accepted; 1: none, or not accepted; 2: anything else.
 */
#include <inttypes.h>
#include <stdio.h>
#include <stdlib.h>
#include <string.h>

#include <levelspruce.h>

#include "lines.h"

enum { PLANNED = 0, NOTHING = 1, REFUSED = 2 };

static struct lines lines;

static int rising(const void *one, const void *other)
{
    uint32_t x = *(const uint32_t *)one, y = *(const uint32_t *)other;

    return (x > y) - (x < y);
}

/* The least spread of as many paths as are wanted, of which there are enough. */
static uint32_t least_spread(void)
{
    uint32_t sorted[PATHS_KEPT], least = UINT32_MAX;
    size_t last;

    memcpy(sorted, lines.delays, sizeof sorted);
    qsort(sorted, lines.count, sizeof *sorted, rising);
    for (last = lines.wanted - 1; last < lines.count; last++)
        if (sorted[last] - sorted[last - (lines.wanted - 1)] < least)
            least = sorted[last] - sorted[last - (lines.wanted - 1)];
    return least;
}

/* How far delays differ, and the window that would do. */
static void says_needed(uint32_t spread)
{
    uint32_t needed = spread + LEVELSPRUCE_EPOCH_FRAMES;

    if (needed <= LEVELSPRUCE_WINDOW_MOST)
        printf("spread\t%" PRIu32 "\twindow\t%" PRIu32 "\twould\tdo\n", spread, needed);
    else
        printf("spread\t%" PRIu32 "\tno\twindow\twould\tdo\n", spread);
}

static void says_name(const struct named *named)
{
    fwrite(named->name, 1, named->length, stdout);
}

/* The candidates' numbers rise, so the order is that of the input. */
static void says_plan(const uint8_t *plan)
{
    uint32_t least = UINT32_MAX, most = 0;
    size_t i, path;

    for (i = 0; i < plan[LEVELSPRUCE_PLAN_COUNT]; i++) {
        path = plan[LEVELSPRUCE_PLAN_EACH + i];
        least = lines.delays[path] < least ? lines.delays[path] : least;
        most = lines.delays[path] > most ? lines.delays[path] : most;
        printf("path\t");
        says_name(&lines.paths[path]);
        printf("\tdelay\t%" PRIu32 "\n", lines.delays[path]);
    }
    printf("spread\t%" PRIu32 "\n", most - least);
}

/* Says which number is out of range: of several the first in the order of the input. */
static int says_range(void)
{
    size_t i;

    printf("answer\t%d\t", LEVELSPRUCE_ANSWER_RANGE);
    if (lines.wanted == 0) {
        printf("line\t1\tjoin\t0\tnone wanted\n");
        return REFUSED;
    }
    if (lines.window < LEVELSPRUCE_WINDOW_LEAST || lines.window > LEVELSPRUCE_WINDOW_MOST) {
        printf("line\t1\twindow\t%" PRIu32 "\tnot %d to %d\n", lines.window, LEVELSPRUCE_WINDOW_LEAST, LEVELSPRUCE_WINDOW_MOST);
        return REFUSED;
    }
    for (i = 0; i < lines.count && i < LEVELSPRUCE_PATHS_MOST; i++)
        if (lines.delays[i] > LEVELSPRUCE_DELAY_MOST) {
            printf("line\t%lu\tdelay\t%" PRIu32 "\tabove %d\n", lines.paths[i].line, lines.delays[i], LEVELSPRUCE_DELAY_MOST);
            return REFUSED;
        }
    if (lines.count > LEVELSPRUCE_PATHS_MOST)
        printf("line\t%lu\tmore than %d paths\n", lines.paths[LEVELSPRUCE_PATHS_MOST].line, LEVELSPRUCE_PATHS_MOST);
    else if (lines.count == 0)
        printf("no path\n");
    else
        printf("line\t1\tjoin\t%" PRIu32 "\tpaths\t%lu\n", lines.wanted, (unsigned long)lines.count);
    return REFUSED;
}

/* A plan from half the paths would mislead, so nothing is planned or checked. */
static int says_wrong(const struct wrong *wrong)
{
    printf("answer\t13\tline\t%lu\t%s", wrong->line, wrong->why);
    if (wrong->other != 0)
        printf("\t%lu", wrong->other);
    printf("\n");
    return REFUSED;
}

static int plan(void)
{
    uint8_t plan[LEVELSPRUCE_PLAN_BYTES];

    if (levelspruce_paths_plan(lines.delays, lines.count, lines.wanted, lines.window, plan, sizeof plan) != LEVELSPRUCE_ANSWER_DONE)
        return says_range();
    if (plan[LEVELSPRUCE_PLAN_COUNT] != 0) {
        says_plan(plan);
        return PLANNED;
    }
    printf("none\n");
    says_needed(least_spread());
    return NOTHING;
}

/* The number of the path of a name, or LEVELSPRUCE_PATH_NONE. */
static uint8_t number_of(const struct named *taken)
{
    size_t i;

    for (i = 0; i < lines.count; i++)
        if (same_name(&lines.paths[i], taken))
            return (uint8_t)i;
    return LEVELSPRUCE_PATH_NONE;
}

static void says_taken(size_t i, const char *why)
{
    printf("take\t");
    says_name(&lines.taken[i]);
    printf("\tline\t%lu\t%s\n", lines.taken[i].line, why);
}

/* The spread of the paths that a proposal takes. */
static uint32_t spread_of(const uint8_t *set)
{
    uint32_t least = UINT32_MAX, most = 0;
    size_t i;

    for (i = 0; i < lines.taken_count; i++)
        if (set[i] != LEVELSPRUCE_PATH_NONE) {
            least = lines.delays[set[i]] < least ? lines.delays[set[i]] : least;
            most = lines.delays[set[i]] > most ? lines.delays[set[i]] : most;
        }
    return most > least ? most - least : 0;
}

/* What is wrong with a proposal, each cause in a line. */
static void says_why_not(const uint8_t *set)
{
    size_t i;

    for (i = 0; i < lines.taken_count; i++)
        if (set[i] == LEVELSPRUCE_PATH_NONE)
            says_taken(i, "no such path");
        else if (memchr(set, set[i], i) != NULL)
            says_taken(i, "twice");
    if (lines.takes != lines.wanted)
        printf("takes\t%lu\twanted\t%" PRIu32 "\n", lines.takes, lines.wanted);
    if (spread_of(set) > lines.window - LEVELSPRUCE_EPOCH_FRAMES)
        says_needed(spread_of(set));
}

static int check(void)
{
    uint8_t set[PATHS_KEPT], accepted = 0;
    size_t i;

    for (i = 0; i < lines.taken_count; i++)
        set[i] = number_of(&lines.taken[i]);
    if (levelspruce_paths_check(lines.delays, lines.count, lines.wanted, lines.window, set, lines.taken_count, &accepted, 1) != LEVELSPRUCE_ANSWER_DONE)
        return says_range();
    printf(accepted ? "accepted\n" : "not accepted\n");
    if (accepted)
        printf("spread\t%" PRIu32 "\n", spread_of(set));
    else
        says_why_not(set);
    return accepted ? PLANNED : NOTHING;
}

int main(int count, char **words)
{
    struct wrong wrong;
    int proposal = count > 1 && strcmp(words[1], "--check") == 0, status, read;

    if (count > 1 + proposal) {
        fprintf(stderr, "plan: there is no choice '%s'\n", words[1 + proposal]);
        return REFUSED;
    }
    read = lines_read(stdin, proposal, &lines, &wrong);
    if (ferror(stdin)) {
        fprintf(stderr, "plan: the input cannot be read\n");
        return REFUSED;
    }
    status = read != 0 ? says_wrong(&wrong) : proposal ? check() : plan();
    if (fflush(stdout) != 0) {
        fprintf(stderr, "plan: the output cannot be written\n");
        return REFUSED;
    }
    return status;
}
