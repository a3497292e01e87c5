/* The lines of a plan: how many paths and with which window, the candidates, and what a proposal takes of them. */
#ifndef LINES_H
#define LINES_H

#include <stddef.h>
#include <stdint.h>
#include <stdio.h>

#include <levelspruce.h>

enum { NAME_MOST = 60 };

/* One more than can be planned, so that the planner itself refuses too many. */
enum { PATHS_KEPT = LEVELSPRUCE_PATHS_MOST + 1 };

/* A name, and the line in which it stands. */
struct named {
    char name[NAME_MOST];
    size_t length;
    unsigned long line;
};

struct lines {
    uint32_t wanted, window;
    struct named paths[PATHS_KEPT];
    uint32_t delays[PATHS_KEPT];
    size_t count;
    struct named taken[PATHS_KEPT]; /* by a proposal */
    size_t taken_count;
    unsigned long takes; /* how many it takes, kept or not */
};

/* Why a line was not read: in words, and perhaps another line that they speak of, or 0. */
struct wrong {
    unsigned long line, other;
    const char *why;
};

/* Reads all lines of a file; those of a proposal too, if there is to be one. 0, or -1 at the first that is wrong. */
int lines_read(FILE *from, int proposal, struct lines *lines, struct wrong *wrong);

int same_name(const struct named *one, const struct named *other);

#endif
