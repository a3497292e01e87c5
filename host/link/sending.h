/* The sending end: the sender and its commands, or slots without LCAS, and what each epoch carried. */
#ifndef SENDING_H
#define SENDING_H

#include <levelspruce.h>

#include "choices.h"
#include "client.h"
#include "line.h"
#include "says.h"

/* More epochs than can be on their way at once. */
enum { CARRIED_MOST = 1024 };

/* What an epoch carried: that many of the client's bytes, from there on. */
struct carried {
    uint64_t epoch, from;
    size_t bytes;
};

struct sending {
    const struct choices *choices;
    uint8_t state[LEVELSPRUCE_SENDER_BYTES];
    uint8_t packets[LINES_MOST][LEVELSPRUCE_PACKET_BYTES_VC12]; /* the longer of the two */
    uint8_t added[EVENTS_MOST], removed[EVENTS_MOST];           /* which commands are done */
    uint32_t gid;                                               /* fifteen bits that go round */
    uint32_t waited;                                            /* starts of epochs at which the wait stood open */
    uint8_t ranks[LEVELSPRUCE_RANKS_BYTES];                     /* of the epoch that runs */
    uint8_t *frame, *members;                                   /* the group frame, and the same bytes member by member in the order of ranks */
    size_t frame_bytes;
    struct carried carried[CARRIED_MOST];
};

/* 0, or -1 where there is no memory. */
int sending_open(struct sending *s, const struct choices *c);

/* Starts an epoch: commands that are due, a lapse where a wait stands too long, then the packets; of a group without LCAS the packets
 * alone. */
void sending_start_epoch(struct sending *s, uint64_t epoch, const struct client *client, struct says *says);

/* Sends frame n of each slot on its line. */
void sending_frame(struct sending *s, uint64_t n, struct client *client, struct line *lines);

/* This was heard of that epoch of the far end's. */
void sending_told(struct sending *s, uint64_t epoch, const uint8_t *heard, struct says *says);

/* What an epoch carried, or NULL where that is long past. */
const struct carried *sending_carried(const struct sending *s, uint64_t epoch);

void sending_close(struct sending *s);

#endif
