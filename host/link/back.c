#include "back.h"

#include <string.h>

#include "says.h"

void back_open(struct back *b, const struct choices *c)
{
    memset(b, 0, sizeof *b);
    b->delay = c->back;
    b->frames = c->frames;
    b->payload = c->vc12 ? LEVELSPRUCE_PAYLOAD_VC12 : 1;
    b->store_bytes = LEVELSPRUCE_STORE_BYTES(1, b->payload, c->least);
    must(levelspruce_sender_start_as(c->kind, 1, c->number, b->sender, sizeof b->sender), "levelspruce_sender_start_as");
    must(levelspruce_receiver_start_as(c->kind, 1, b->payload, c->least, b->store_bytes, NULL, 0, NULL, 0, b->receiver, LEVELSPRUCE_RECEIVER_ROWS(1)),
         "levelspruce_receiver_start_as");
}

void back_start_epoch(struct back *b, const uint8_t *reply)
{
    must(levelspruce_sender_start_epoch(b->sender, sizeof b->sender, 0, reply[LEVELSPRUCE_REPLY_MST], reply[LEVELSPRUCE_REPLY_RS_ACK]),
         "levelspruce_sender_start_epoch");
    must(levelspruce_sender_packet(b->sender, sizeof b->sender, 0, b->packets[b->end % BACK_MOST], b->frames), "levelspruce_sender_packet");
    b->end++;
}

/* Hands a frame over; an IDLE slot carries zeros. */
static void hand(struct back *b, uint8_t head)
{
    static const uint8_t zeros[LEVELSPRUCE_PAYLOAD_VC12];
    uint8_t answer = levelspruce_receiver_frame(b->receiver, LEVELSPRUCE_RECEIVER_ROWS(1), 0, 0, head, zeros, b->payload, b->store, b->store_bytes);

    if (answer != LEVELSPRUCE_ANSWER_STEP)
        must(answer, "levelspruce_receiver_frame");
}

/* Whether a report came in whose epoch something was heard. */
static int hears(struct back *b, uint8_t *heard)
{
    uint8_t record[LEVELSPRUCE_REPORT_BYTES];

    must(levelspruce_receiver_fetch(b->receiver, LEVELSPRUCE_RECEIVER_ROWS(1), b->store, b->store_bytes, b->out, sizeof b->out, record, sizeof record),
         "levelspruce_receiver_fetch");
    if (record[LEVELSPRUCE_REPORT_MARK] == LEVELSPRUCE_MARK_NONE)
        return 0;
    must(levelspruce_receiver_heard((const uint8_t(*)[LEVELSPRUCE_ROW_BYTES])b->receiver, LEVELSPRUCE_RECEIVER_ROWS(1), heard, LEVELSPRUCE_HEARD_BYTES),
         "levelspruce_receiver_heard");
    return heard[LEVELSPRUCE_HEARD_SAID];
}

int back_next(struct back *b, uint64_t time, uint8_t *heard, uint64_t *epoch)
{
    while (b->next < b->end * b->frames && b->next + b->delay <= time) {
        *epoch = b->next / b->frames;
        hand(b, b->packets[*epoch % BACK_MOST][b->next % b->frames]);
        b->next++;
        if (hears(b, heard))
            return 1;
    }
    return 0;
}
