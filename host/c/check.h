/* Counts tests: one line for each, 'ok' or 'failed' and its name, and the tally as the last line. */
#ifndef CHECK_H
#define CHECK_H

#include <stdio.h>

/* How many entries an array has. */
#define COUNT(a) (sizeof(a) / sizeof(a)[0])

static int checks_passed;
static int checks_failed;

static void check(const char *name, int held)
{
    if (held)
        checks_passed++;
    else
        checks_failed++;
    printf("%s\t%s\n", held ? "ok" : "failed", name);
    fflush(stdout); /* so that the names before a crash are seen */
}

/* The program's exit status. */
static int tally(void)
{
    printf("%d passed, %d failed\n", checks_passed, checks_failed);
    return checks_failed != 0;
}

#endif
