/* The way back: the far end's own packets carry its receiver's reply, and this end's own receiver hears it. */
#ifndef BACK_H
#define BACK_H

#include <levelspruce.h>

#include "choices.h"

enum { BACK_MOST = DELAY_MOST / LEVELSPRUCE_EPOCH_FRAMES + 2 };

struct back {
    uint8_t sender[LEVELSPRUCE_SENDER_BYTES]; /* the far end's: one slot, which stays IDLE */
    uint64_t delay;
    uint64_t next, end;                                                    /* the next frame to come in, and the epochs that have started */
    size_t frames;                                                         /* of an epoch */
    uint8_t packets[BACK_MOST][LEVELSPRUCE_PACKET_BYTES_VC12];             /* the longer of the two */
    uint8_t receiver[LEVELSPRUCE_RECEIVER_ROWS(1)][LEVELSPRUCE_ROW_BYTES]; /* this end's: one port, with the least window */
    uint32_t payload;
    size_t store_bytes;
    uint8_t store[LEVELSPRUCE_STORE_BYTES(1, LEVELSPRUCE_PAYLOAD_VC12, LEVELSPRUCE_WINDOW_LEAST_VC12)];
    uint8_t out[LEVELSPRUCE_OUTPUT_BYTES_VC12(1)];
};

void back_open(struct back *b, const struct choices *c);

/* The far end starts an epoch, and this reply goes out in its packet. */
void back_start_epoch(struct back *b, const uint8_t *reply);

/* The frames that have come by this time. 1 where a report came and something was heard: then that, and the epoch that it was sent in. */
int back_next(struct back *b, uint64_t time, uint8_t *heard, uint64_t *epoch);

#endif
