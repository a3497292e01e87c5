/* The receiving end: the receiver, and what is lent to it. */
#ifndef RECEIVING_H
#define RECEIVING_H

#include <levelspruce.h>
#include <stdio.h>

#include "choices.h"

/* Where what the receiver is handed is written, or NULL, and how many bytes of each payload are. */
struct recording {
    FILE *to;
    size_t payload;
};

struct receiving {
    uint32_t ports;
    int fixed; /* the group has no LCAS */
    size_t payload;
    uint8_t (*state)[LEVELSPRUCE_ROW_BYTES], (*before)[LEVELSPRUCE_ROW_BYTES]; /* now, and before the last fetch */
    size_t rows;
    uint8_t *store;
    size_t store_bytes;
    uint8_t *out;
    size_t out_bytes;
    uint8_t *nothing;               /* the payload of a frame that came flagged */
    struct recording recordings[2]; /* what the receiver is handed, whole and its heads */
};

struct report {
    uint8_t mark, number, x, cause;
    uint64_t ports; /* to which the cause applies, a bit each; none where it is not of single ports */
    size_t bytes;   /* of out */
};

/* 0, or -1 where there is no memory, or -2 where the recording cannot be written. */
int receiving_open(struct receiving *r, const struct choices *c);

/* Hands a frame over. 0 where it has to be handed again after a report. */
int receiving_frame(struct receiving *r, uint32_t port, uint8_t h4, const uint8_t *payload);

/* A frame that came flagged. */
void receiving_failed(struct receiving *r, uint32_t port);

/* Fetches a report. 0 where none is due. */
int receiving_fetch(struct receiving *r, struct report *report);

void receiving_ports(const struct receiving *r, uint8_t (*ports)[LEVELSPRUCE_PORT_BYTES]);

/* How many frames each port in step lies behind the foremost. */
void receiving_behind(const struct receiving *r, uint32_t *behind);

/* Whether receiving has begun: some port is readable. */
int receiving_has_begun(const struct receiving *r);

/* The reply for the packets of an epoch. */
void receiving_reply(const struct receiving *r, uint8_t number, uint8_t *reply);

/* 0, or -1 where the recording could not be written whole. */
int receiving_close(struct receiving *r);

#endif
