/* What was chosen on the command line. */
#ifndef CHOICES_H
#define CHOICES_H

#include <levelspruce.h>

enum { LINES_MOST = LEVELSPRUCE_SLOTS_MOST, EVENTS_MOST = 256, DELAY_MOST = 8192 };

/* Something that befalls a slot in an epoch; epochs count from 0 here and do not go round. */
struct event {
    uint64_t epoch;
    uint32_t slot;
};

struct events {
    size_t count;
    struct event each[EVENTS_MOST];
};

/* A port's frames come flagged, from one frame time to another, both included. */
struct failure {
    uint32_t port;
    uint64_t from, to;
};

struct failures {
    size_t count;
    struct failure each[EVENTS_MOST];
};

struct choices {
    uint32_t slots, payload, window;
    int fixed;                             /* the group has no LCAS */
    int vc12;                              /* its packets go in K4, bit by bit */
    uint32_t kind, frames, numbers, least; /* of the group: its kind, the frames of an epoch, how many numbers epochs have, the least window */
    uint32_t sq[LINES_MOST];               /* the number under which each slot sends, where it has none */
    uint32_t port[LINES_MOST], delay[LINES_MOST], first[LINES_MOST]; /* of each slot's line */
    uint32_t back, number, lapse, late;
    uint32_t hold_off, restore; /* of every port, in reports */
    struct events adds, removes, damages;
    struct failures failures;
    uint64_t epochs;
    int whole_file;   /* more epochs, until the file is sent */
    uint64_t carried; /* the bytes that so many epochs carry at most */
    const char *file, *out, *record, *heads;
    int at_once, doubtful, behind, each, quiet, help, version;
};

/* Reads the command line's words. 0, or -1 where one is wrong: then a line on standard error says which. */
int choices_read(struct choices *c, int count, char **words);

#endif
