#include "sending.h"

#include <stdlib.h>
#include <string.h>

int sending_open(struct sending *s, const struct choices *c)
{
    memset(s, 0, sizeof *s);
    s->choices = c;
    s->gid = 1;
    s->frame = malloc((size_t)c->slots * c->payload);
    s->members = malloc((size_t)c->slots * c->payload);
    if (s->frame == NULL || s->members == NULL)
        return -1;
    if (!c->fixed)
        must(levelspruce_sender_start_as(c->kind, c->slots, c->number, s->state, sizeof s->state), "levelspruce_sender_start_as");
    return 0;
}

/* The GID of an epoch, from the sequence of 2^15 - 1 bits by x^15 + x^14 + 1. */
static uint32_t next_gid(struct sending *s)
{
    uint32_t bit = ((s->gid >> 14) ^ (s->gid >> 13)) & 1;

    s->gid = ((s->gid << 1) | bit) & 0x7FFF;
    return bit;
}

typedef uint8_t command(uint8_t *state, size_t state_length, uint32_t slot);

/* Gives each command that is due. One that meets an open wait is given again at the next start. */
static void give(struct sending *s, const char *name, command *call, const struct events *events, uint8_t *done, uint64_t epoch, struct says *says)
{
    size_t i;

    for (i = 0; i < events->count; i++)
        if (!done[i] && events->each[i].epoch <= epoch) {
            uint8_t answer = call(s->state, sizeof s->state, events->each[i].slot);

            done[i] = answer != LEVELSPRUCE_ANSWER_WAIT;
            if (done[i] || events->each[i].epoch == epoch)
                says_command(says, name, events->each[i].slot, answer);
        }
}

static void read_board(const struct sending *s, uint8_t *board)
{
    must(levelspruce_sender_board(s->state, sizeof s->state, board, LEVELSPRUCE_BOARD_BYTES), "levelspruce_sender_board");
}

static void tell_wait(const struct sending *s, struct says *says, const char *closed_by)
{
    uint8_t board[LEVELSPRUCE_BOARD_BYTES];

    read_board(s, board);
    says_wait(says, board, closed_by);
}

/* A far end that never answers must not keep a wait open for ever. */
static void lapse_if_late(struct sending *s, struct says *says)
{
    uint8_t board[LEVELSPRUCE_BOARD_BYTES];

    read_board(s, board);
    s->waited = board[LEVELSPRUCE_BOARD_WAIT] ? s->waited + 1 : 0;
    if (s->waited > s->choices->lapse) {
        must(levelspruce_sender_lapse(s->state, sizeof s->state), "levelspruce_sender_lapse");
        s->waited = 0;
        tell_wait(s, says, "lapse");
    }
}

static void write_packets(struct sending *s)
{
    uint32_t slot;

    for (slot = 0; slot < s->choices->slots; slot++)
        must(levelspruce_sender_packet(s->state, sizeof s->state, slot, s->packets[slot], s->choices->frames), "levelspruce_sender_packet");
}

/* An epoch of a group with LCAS; the board that goes out with it. */
static void start_epoch(struct sending *s, uint64_t epoch, struct says *says, uint8_t *going)
{
    const struct choices *c = s->choices;

    lapse_if_late(s, says);
    give(s, "add", levelspruce_sender_add, &c->adds, s->added, epoch, says);
    give(s, "remove", levelspruce_sender_remove, &c->removes, s->removed, epoch, says);
    tell_wait(s, says, "nobody");

    /* This end receives nothing, so it has no member to call OK: MST is all ones, RS-Ack stays 0. */
    must(levelspruce_sender_start_epoch(s->state, sizeof s->state, next_gid(s), 0xFF, 0), "levelspruce_sender_start_epoch");
    write_packets(s);
    must(levelspruce_sender_ranks(s->state, sizeof s->state, s->ranks, sizeof s->ranks), "levelspruce_sender_ranks");
    must(levelspruce_sender_board_going(s->state, sizeof s->state, going, LEVELSPRUCE_BOARD_BYTES), "levelspruce_sender_board_going");
}

/* An epoch of a group without LCAS: every slot carries payload from the first frame on, and its number is its rank. Where the numbers are
 * not 0 to X - 1, each once, no receiver takes them, and a slot whose number is above carries zeros. */
static void start_fixed_epoch(struct sending *s, uint64_t epoch)
{
    const struct choices *c = s->choices;
    uint32_t slot;

    s->ranks[LEVELSPRUCE_RANKS_X] = (uint8_t)c->slots;
    for (slot = 0; slot < c->slots; slot++) {
        s->ranks[LEVELSPRUCE_RANKS_EACH + slot] = c->sq[slot] < c->slots ? (uint8_t)c->sq[slot] : LEVELSPRUCE_RANK_NONE;
        must(levelspruce_packet_write_fixed((uint32_t)((c->number + epoch) % 256), c->sq[slot], s->packets[slot], LEVELSPRUCE_PACKET_BYTES),
             "levelspruce_packet_write_fixed");
    }
}

void sending_start_epoch(struct sending *s, uint64_t epoch, const struct client *client, struct says *says)
{
    struct carried *carried = &s->carried[epoch % CARRIED_MOST];
    uint8_t going[LEVELSPRUCE_BOARD_BYTES];

    memcpy(going, says->going, sizeof going); /* the one told last, where no board goes out */
    if (s->choices->fixed)
        start_fixed_epoch(s, epoch);
    else
        start_epoch(s, epoch, says, going);
    s->frame_bytes = (size_t)s->ranks[LEVELSPRUCE_RANKS_X] * s->choices->payload;
    carried->epoch = epoch;
    carried->from = client->sent;
    carried->bytes = s->choices->frames * s->frame_bytes;
    says_start(says, epoch, s->ranks[LEVELSPRUCE_RANKS_X], carried->bytes, going);
}

/* Spreads the group frame once for all members. levelspruce_sender_payload gives the same bytes slot by slot, more slowly. */
static void spread(struct sending *s)
{
    must(levelspruce_spread(s->ranks[LEVELSPRUCE_RANKS_X], s->choices->payload, s->frame, s->frame_bytes, s->members, s->frame_bytes), "levelspruce_spread");
}

/* The payload of a slot: the bytes of its rank, or zeros where it has none. */
static void write_payload(const struct sending *s, uint32_t slot, uint8_t *payload)
{
    size_t bytes = s->choices->payload, rank = s->ranks[LEVELSPRUCE_RANKS_EACH + slot];

    if (rank == LEVELSPRUCE_RANK_NONE)
        memset(payload, 0, bytes);
    else
        memcpy(payload, s->members + rank * bytes, bytes);
}

void sending_frame(struct sending *s, uint64_t n, struct client *client, struct line *lines)
{
    uint32_t slot;

    client_take(client, s->frame, s->frame_bytes);
    spread(s);
    for (slot = 0; slot < s->choices->slots; slot++) {
        uint8_t *place = line_put(&lines[slot], n);

        if (place != NULL) {
            write_payload(s, slot, place);
            place[s->choices->payload] = s->packets[slot][n % s->choices->frames];
        }
    }
}

void sending_told(struct sending *s, uint64_t epoch, const uint8_t *heard, struct says *says)
{
    uint8_t before[LEVELSPRUCE_BOARD_BYTES], after[LEVELSPRUCE_BOARD_BYTES];
    uint32_t number = heard[LEVELSPRUCE_HEARD_EPOCH], mst = heard[LEVELSPRUCE_HEARD_MST], rs_ack = heard[LEVELSPRUCE_HEARD_RS_ACK];

    read_board(s, before);
    must(levelspruce_sender_report(s->state, sizeof s->state, number, mst, rs_ack), "levelspruce_sender_report");
    read_board(s, after);
    if (memcmp(before, after, sizeof before) != 0)
        says_told(says, epoch, mst, rs_ack);
    says_wait(says, after, "the far end");
}

const struct carried *sending_carried(const struct sending *s, uint64_t epoch)
{
    const struct carried *carried = &s->carried[epoch % CARRIED_MOST];

    return carried->epoch == epoch ? carried : NULL;
}

void sending_close(struct sending *s)
{
    free(s->frame);
    free(s->members);
}
