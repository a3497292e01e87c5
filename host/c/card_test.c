/*
 * Tests of the calls of two circuits on one card over the archive: every answer number of every call, the order of the
 * refusals, that a refusal changes no byte and a call no byte of the other group's part, P8 and P9 with another group
 * beside, a group beside a sender of its own, two groups through to the bytes of their receivers, and states that no call
 * wrote.
 */
#include <levelspruce.h>

#include <string.h>

#include "check.h"

enum { LENT_MOST = 2 * LEVELSPRUCE_PAYLOAD_MOST };
#include "lent.h"

enum { STATE = LEVELSPRUCE_CARD_BYTES, SENDER = LEVELSPRUCE_SENDER_BYTES, ROW = LEVELSPRUCE_OWNED_BYTES, NONE = LEVELSPRUCE_RANK_NONE };
enum { A = LEVELSPRUCE_WORD_ADD, N = LEVELSPRUCE_WORD_NORM, E = LEVELSPRUCE_WORD_EOS, I = LEVELSPRUCE_WORD_IDLE };
enum { START, CLAIM, RELEASE, ADD, REMOVE, REPORT, LAPSE, EPOCH, PACKET, PAYLOAD, BOARD, GOING, RANKS, OWNED, CALLS };

static const char *const call_name[CALLS] = { "start",  "claim",   "release", "add",         "remove", "report", "lapse", "start of an epoch",
                                              "packet", "payload", "board",   "board going", "ranks",  "owned" };

static const size_t result_bytes[CALLS] = { [PACKET] = LEVELSPRUCE_PACKET_BYTES,
                                            [BOARD] = LEVELSPRUCE_BOARD_BYTES,
                                            [GOING] = LEVELSPRUCE_BOARD_BYTES,
                                            [RANKS] = LEVELSPRUCE_RANKS_BYTES,
                                            [OWNED] = LEVELSPRUCE_OWNED_BYTES };
static const size_t wrong[] = { 0, 1, SENDER, STATE - 1, STATE + 1 };
static const uint32_t wide[] = { 256, 257, 65537, UINT32_MAX };
static const uint32_t no_group[] = { 2, 3, 256, UINT32_MAX };

static struct lent state, frame, out;

#define done(...) (say(__VA_ARGS__) == LEVELSPRUCE_ANSWER_DONE)
#define BYTES(...) ((const uint8_t[]){ __VA_ARGS__ })

/* The call itself; a length of 0 goes with NULL. A start takes the group for its count. */
static uint8_t call(int which, uint32_t g, uint32_t a, uint32_t b, uint32_t c, size_t sl, size_t fl, size_t ol)
{
    uint8_t *s = sl ? lent_bytes(&state) : NULL, *f = fl ? lent_bytes(&frame) : NULL, *o = ol ? lent_bytes(&out) : NULL;

    switch (which) {
    case START: return levelspruce_card_start(g, a, b, s, sl);
    case CLAIM: return levelspruce_card_claim(s, sl, g, a);
    case RELEASE: return levelspruce_card_release(s, sl, g, a);
    case ADD: return levelspruce_card_add(s, sl, g, a);
    case REMOVE: return levelspruce_card_remove(s, sl, g, a);
    case REPORT: return levelspruce_card_report(s, sl, g, a, b, c);
    case LAPSE: return levelspruce_card_lapse(s, sl, g);
    case EPOCH: return levelspruce_card_start_epoch(s, sl, g, a, b, c);
    case PACKET: return levelspruce_card_packet(s, sl, g, a, o, ol);
    case PAYLOAD: return levelspruce_card_payload(s, sl, g, a, b, f, fl, o, ol);
    case BOARD: return levelspruce_card_board(s, sl, g, o, ol);
    case GOING: return levelspruce_card_board_going(s, sl, g, o, ol);
    case RANKS: return levelspruce_card_ranks(s, sl, g, o, ol);
    default: return levelspruce_card_owned(s, sl, g, o, ol);
    }
}

/* The part of a group stands as it was remembered. */
static int part_stands(uint32_t g)
{
    size_t at = GUARD + ROW + g * SENDER;

    return memcmp(state.now + at, state.before + at, SENDER) == 0;
}

/* The answer, or -1 where a byte changed that this answer must leave. */
static int ask(int which, uint32_t g, uint32_t a, uint32_t b, uint32_t c, size_t sl, size_t fl, size_t ol)
{
    int answer, changes;

    noise(out.now, sizeof out.now, 5);
    remember(&state);
    remember(&frame);
    remember(&out);
    answer = call(which, g, a, b, c, sl, fl, ol);
    changes = which <= EPOCH && (answer == 0 || (which == START && answer == 4 && sl == STATE));
    return untouched(&frame) && stands(&out, which > EPOCH && answer == 0 ? ol : 0) && stands(&state, changes ? STATE : 0)
                && (which == START || !changes || part_stands(1 - g))
             ? answer
             : -1;
}

/* With right lengths; payload takes a slot, P and X. */
static int say(int which, uint32_t g, uint32_t a, uint32_t b, uint32_t c)
{
    return which == PAYLOAD ? ask(which, g, a, b, c, STATE, (size_t)b * c, b) : ask(which, g, a, b, c, STATE, 0, result_bytes[which]);
}

/* A slot claimed and added. */
static int joined(uint32_t g, uint32_t slot)
{
    return done(CLAIM, g, slot, 0, 0) && done(ADD, g, slot, 0, 0);
}

/* A card of four slots: the first two are active in group 0, the last two in group 1, and no wait is open. */
static int active(void)
{
    return done(START, 4, 0, 0, 0) && joined(0, 0) && joined(1, 2) && joined(0, 1) && joined(1, 3) && done(REPORT, 0, 0, 0, 0) && done(REPORT, 1, 0, 0, 0)
        && done(LAPSE, 0, 0, 0, 0) && done(LAPSE, 1, 0, 0, 0);
}

static int board_is(int which, uint32_t g, int count, int wait, const uint8_t *rows)
{
    const uint8_t *b = lent_bytes(&out);
    int i, held = done(which, g, 0, 0, 0) && b[LEVELSPRUCE_BOARD_COUNT] == count && b[LEVELSPRUCE_BOARD_WAIT] == wait;

    for (i = 0; i < LEVELSPRUCE_SLOTS_MOST; i++)
        held = held && b[LEVELSPRUCE_BOARD_ROWS + 2 * i] == (i < count ? rows[2 * i] : I)
            && b[LEVELSPRUCE_BOARD_ROWS + 2 * i + 1] == (i < count ? rows[2 * i + 1] : LEVELSPRUCE_NUMBER_IDLE);
    return held;
}

static int owns(uint32_t g, int count, const uint8_t *each)
{
    int i, held = done(OWNED, g, 0, 0, 0);

    for (i = 0; i < LEVELSPRUCE_SLOTS_MOST; i++)
        held = held && out.now[GUARD + i] == (i < count ? each[i] : 0);
    return held;
}

static int empties(uint32_t count)
{
    return active() && say(START, count, 256, 256, 0) == 4 && say(CLAIM, 0, 0, 0, 0) == 1 && say(CLAIM, 1, 0, 0, 0) == 1 && board_is(BOARD, 0, 0, 0, NULL)
        && board_is(BOARD, 1, 0, 0, NULL);
}

static void starting(void)
{
    uint8_t first[STATE];
    size_t i;
    int empty = empties(0) && empties(65), lengths = active(), eight = lengths;

    for (i = 0; i < COUNT(wrong); i++)
        lengths = lengths && ask(START, 0, 256, 0, 0, wrong[i], 0, 0) == 4 && ask(START, 65, 0, 0, 0, wrong[i], 0, 0) == 4
               && ask(START, 2, 0, 0, 0, wrong[i], 0, 0) == 9 && ask(START, 2, 256, 256, 0, wrong[i], 0, 0) == 9;
    for (i = 0; i < COUNT(wide); i++) {
        eight = eight && say(START, 2, wide[i], 0, 0) == 8 && say(START, 2, 0, wide[i], 0) == 8;
        empty = empty && empties(wide[i]);
    }
    check("start answers 4 for a count out of range, before 8, and leaves two empty groups", empty);
    check("start answers 9 for a wrong length, after 4 and before 8", lengths);
    check("start answers 8 for either first epoch above 255", eight);
    check("1 and 64 slots start, IDLE and unowned in both groups", done(START, 1, 255, 0, 0) && board_is(BOARD, 0, 1, 0, BYTES(I, 255))
                                                                       && board_is(GOING, 1, 1, 0, BYTES(I, 255)) && owns(0, 1, BYTES(0))
                                                                       && owns(1, 1, BYTES(0)) && done(START, 64, 0, 0, 0) && joined(1, 63));
    check("each group has its own first epoch", done(START, 2, 7, 200, 0) && done(RANKS, 0, 0, 0, 0) && out.now[GUARD + LEVELSPRUCE_RANKS_EPOCH] == 7
                                                    && done(RANKS, 1, 0, 0, 0) && out.now[GUARD + LEVELSPRUCE_RANKS_EPOCH] == 200);
    empty = done(START, 3, 9, 8, 0);
    memcpy(first, lent_bytes(&state), STATE);
    noise(lent_bytes(&state), STATE, 77);
    check("start writes all of state, whatever was there", empty && done(START, 3, 9, 8, 0) && memcmp(first, lent_bytes(&state), STATE) == 0);
}

/* Every call but start: a wrong state length is 9 before all else, then a group that is none is 1. */
static void first_tests(void)
{
    char name[120];
    int which, nine, one;
    size_t i;

    for (which = CLAIM; which < CALLS; which++) {
        nine = one = active();
        for (i = 0; i < COUNT(wrong); i++)
            nine = nine && ask(which, 0, 0, 1, 0, wrong[i], 0, which == PAYLOAD ? 1 : result_bytes[which]) == 9
                && ask(which, 2, UINT32_MAX, UINT32_MAX, UINT32_MAX, wrong[i], 0, 0) == 9;
        for (i = 0; i < COUNT(no_group); i++)
            one = one && ask(which, no_group[i], 0, 1, 0, STATE, 0, which == PAYLOAD ? 1 : result_bytes[which]) == 1
               && ask(which, no_group[i], UINT32_MAX, UINT32_MAX, UINT32_MAX, STATE, 0, 0) == 1;
        sprintf(name, "%s answers 9 for a wrong state length, before all else", call_name[which]);
        check(name, nine);
        sprintf(name, "%s answers 1 for a group other than the two, before all that follows", call_name[which]);
        check(name, one);
    }
}

static int far_slots_are_1(int which, uint32_t count)
{
    size_t i;
    int held = say(which, 0, count, 0, 0) == 1 && say(which, 1, count, 0, 0) == 1;

    for (i = 0; i < COUNT(wide); i++)
        held = held && say(which, 0, wide[i], 0, 0) == 1 && say(which, 1, wide[i], 0, 0) == 1;
    return held;
}

static void owning(void)
{
    int which, far = 1;

    for (which = CLAIM; which <= REMOVE; which++)
        far = far && done(START, 64, 0, 0, 0) && far_slots_are_1(which, 64) && done(START, 2, 0, 0, 0) && far_slots_are_1(which, 2);
    check("claim, release, add and remove answer 1 for a slot not below the count", far);
    check("claim 0 3, claim 1 3, claim 0 3: 0 14 14",
          done(START, 64, 0, 0, 0) && say(CLAIM, 0, 3, 0, 0) == 0 && say(CLAIM, 1, 3, 0, 0) == 14 && say(CLAIM, 0, 3, 0, 0) == 14);
    check("add 1 3 after it, and add 0 4, which is nobody's: 14",
          say(ADD, 1, 3, 0, 0) == 14 && say(ADD, 0, 4, 0, 0) == 14 && say(REMOVE, 1, 3, 0, 0) == 14 && say(REMOVE, 0, 4, 0, 0) == 14);
    check("add 0 3, release 0 3: 0 15", done(ADD, 0, 3, 0, 0) && say(RELEASE, 0, 3, 0, 0) == 15);
    check("release answers 14 for the other's slot, used or not, and for nobody's",
          say(RELEASE, 1, 3, 0, 0) == 14 && say(RELEASE, 0, 4, 0, 0) == 14 && done(CLAIM, 1, 5, 0, 0) && say(RELEASE, 0, 5, 0, 0) == 14);
    check("release answers 15 for active and DNU", active() && say(RELEASE, 0, 0, 0, 0) == 15 && done(REPORT, 0, 0, 0xFF, 0) && say(RELEASE, 0, 0, 0, 0) == 15);
    check("with a wait open 14 comes before 3, and 3 before 2", active() && done(REMOVE, 0, 0, 0, 0) && say(ADD, 0, 2, 0, 0) == 14
                                                                    && say(REMOVE, 0, 2, 0, 0) == 14 && say(ADD, 0, 0, 0, 0) == 3
                                                                    && say(REMOVE, 0, 0, 0, 0) == 3 && say(ADD, 0, 1, 0, 0) == 3);
    check("neither claim nor release waits", done(RELEASE, 0, 0, 0, 0) && done(CLAIM, 0, 0, 0, 0) && done(RELEASE, 0, 0, 0, 0));
    check("a released slot is claimed by the other, and again by the first",
          done(CLAIM, 1, 0, 0, 0) && say(CLAIM, 0, 0, 0, 0) == 14 && done(RELEASE, 1, 0, 0, 0) && done(CLAIM, 0, 0, 0, 0));
    check("2 is a state that does not allow it",
          active() && say(ADD, 0, 0, 0, 0) == 2 && done(REMOVE, 0, 0, 0, 0) && done(LAPSE, 0, 0, 0, 0) && say(REMOVE, 0, 0, 0, 0) == 2);
    check("each group reads its own slots", active() && owns(0, 4, BYTES(1, 1, 0, 0)) && owns(1, 4, BYTES(0, 0, 1, 1)));
}

static void reports(void)
{
    size_t i;
    int report = active(), epoch = report;

    for (i = 0; i < COUNT(wide); i++) {
        report = report && say(REPORT, 1, wide[i], 0, 0) == 8 && say(REPORT, 0, 0, wide[i], 0) == 8 && say(REPORT, 1, 0, 0, wide[i]) == 8;
        epoch = epoch && say(EPOCH, 1, wide[i], 0, 0) == 8 && say(EPOCH, 0, 0, wide[i], 0) == 8 && say(EPOCH, 1, 0, 0, wide[i]) == 8;
    }
    check("report answers 8 for a number above 255", report);
    check("the start of an epoch answers 8 for a GID or RS-Ack above 1 or an MST above 255",
          epoch && say(EPOCH, 0, 2, 0, 0) == 8 && say(EPOCH, 1, 0, 0, 2) == 8 && done(EPOCH, 1, 1, 255, 1));
    check("waits are each group's own", active() && done(REMOVE, 0, 0, 0, 0) && done(REMOVE, 1, 2, 0, 0) && done(LAPSE, 0, 0, 0, 0)
                                            && say(LAPSE, 0, 0, 0, 0) == 2 && say(ADD, 1, 2, 0, 0) == 3 && done(ADD, 0, 0, 0, 0) && done(LAPSE, 1, 0, 0, 0)
                                            && done(ADD, 1, 2, 0, 0));
}

static void examples(void)
{
    check("P8 in both groups, interleaved", done(START, 4, 0, 0, 0) && joined(0, 0) && joined(1, 2) && joined(1, 3) && joined(0, 1)
                                                && done(REPORT, 1, 0, 0xBF, 0) && done(REPORT, 0, 0, 0xBF, 0) && say(REMOVE, 0, 0, 0, 0) == 3
                                                && say(REMOVE, 1, 2, 0, 0) == 3 && board_is(BOARD, 0, 4, 1, BYTES(A, 1, E, 0, I, 255, I, 255))
                                                && board_is(BOARD, 1, 4, 1, BYTES(I, 255, I, 255, A, 1, E, 0)));
    check("P9 in group 0 while group 1 reports", done(START, 4, 0, 0, 0) && joined(0, 0) && joined(0, 1) && joined(1, 3) && joined(0, 2)
                                                     && done(REPORT, 0, 0, 0, 0) && done(REPORT, 1, 0, 0xFF, 1) && done(LAPSE, 0, 0, 0, 0)
                                                     && board_is(BOARD, 0, 4, 0, BYTES(N, 0, N, 1, E, 2, I, 255)) && done(REMOVE, 0, 1, 0, 0)
                                                     && done(REPORT, 1, 0, 0, 1) && board_is(BOARD, 0, 4, 1, BYTES(N, 0, I, 255, E, 1, I, 255)));
}

static void results(void)
{
    int which, nine = active(), order = 1;

    for (which = BOARD; which < CALLS; which++)
        nine = nine && ask(which, 0, 0, 0, 0, STATE, 0, 0) == 9 && ask(which, 1, 0, 0, 0, STATE, 0, result_bytes[which] - 1) == 9
            && ask(which, 1, 0, 0, 0, STATE, 0, result_bytes[which] + 1) == 9;
    check("boards, ranks and owned slots answer 9 for a wrong length of the result", nine);
    check("packet and payload answer 2 before the group's first epoch, whatever the other's",
          done(EPOCH, 1, 0, 0, 0) && say(PACKET, 0, 0, 0, 0) == 2 && say(PAYLOAD, 0, 0, 3, 0) == 2 && say(PACKET, 1, 2, 0, 0) == 0);
    for (which = 0; which < 2; which++) /* before the first epoch of group 0, and in it */
        order = order && say(PACKET, 0, 4, 0, 0) == 1 && ask(PACKET, 0, UINT32_MAX, 0, 0, STATE, 0, 0) == 1 && ask(PACKET, 0, 2, 0, 0, STATE, 0, 0) == 14
             && ask(PACKET, 0, 0, 0, 0, STATE, 0, 0) == 9 && ask(PACKET, 0, 0, 0, 0, STATE, 0, 15) == 9 && ask(PACKET, 0, 0, 0, 0, STATE, 0, 17) == 9
             && ask(PAYLOAD, 0, 256, 0, 0, STATE, 1, 0) == 1 && ask(PAYLOAD, 0, 2, 0, 0, STATE, 1, 0) == 14 && ask(PAYLOAD, 0, 0, 0, 0, STATE, 1, 0) == 4
             && ask(PAYLOAD, 0, 0, 2341, 0, STATE, 1, 1) == 4 && ask(PAYLOAD, 0, 0, 3, 0, STATE, 1, 3) == 9 && ask(PAYLOAD, 0, 0, 3, 0, STATE, 0, 2) == 9
             && done(EPOCH, 0, 1, 0xAB, 0);
    check("packet and payload answer 1, 14, 4 and 9 in this order, before 2", order);
}

/* What a host has to know: the packets of an epoch are fixed at its start, and ownership changes at once. */
static void releases(void)
{
    check("a slot released within an epoch stands on the board going out, and its packet is 14",
          active() && done(EPOCH, 0, 0, 0xFF, 0) && done(REMOVE, 0, 1, 0, 0) && done(RELEASE, 0, 1, 0, 0)
              && board_is(GOING, 0, 4, 0, BYTES(N, 0, E, 1, I, 255, I, 255)) && board_is(BOARD, 0, 4, 1, BYTES(E, 0, I, 255, I, 255, I, 255))
              && say(PACKET, 0, 1, 0, 0) == 14 && say(PAYLOAD, 0, 1, 3, 0) == 14 && done(PACKET, 0, 0, 0, 0));
    check("claimed by the other it sends IDLE for it, until that group's next epoch",
          done(EPOCH, 1, 0, 0xFF, 0) && joined(1, 1) && done(PACKET, 1, 1, 0, 0) && board_is(GOING, 1, 4, 0, BYTES(I, 255, I, 255, N, 0, E, 1))
              && done(EPOCH, 1, 0, 0xFF, 0) && board_is(GOING, 1, 4, 0, BYTES(I, 255, A, 2, N, 0, E, 1)));
}

/* What the group shows and sends is what a sender of its own does, byte by byte. */
static int same_as(const uint8_t *sender, uint32_t g, uint32_t count)
{
    uint8_t board[LEVELSPRUCE_BOARD_BYTES], ranks[LEVELSPRUCE_RANKS_BYTES], h4[LEVELSPRUCE_PACKET_BYTES];
    uint32_t slot;
    int held = levelspruce_sender_board(sender, SENDER, board, sizeof board) == 0 && done(BOARD, g, 0, 0, 0)
            && memcmp(lent_bytes(&out), board, sizeof board) == 0 && levelspruce_sender_board_going(sender, SENDER, board, sizeof board) == 0
            && done(GOING, g, 0, 0, 0) && memcmp(lent_bytes(&out), board, sizeof board) == 0
            && levelspruce_sender_ranks(sender, SENDER, ranks, sizeof ranks) == 0 && done(RANKS, g, 0, 0, 0)
            && memcmp(lent_bytes(&out), ranks, sizeof ranks) == 0;

    for (slot = 0; held && slot < count; slot++)
        if (levelspruce_sender_packet(sender, SENDER, slot, h4, sizeof h4) == 0)
            held = done(PACKET, g, slot, 0, 0) && memcmp(lent_bytes(&out), h4, sizeof h4) == 0;
        else
            held = say(PACKET, g, slot, 0, 0) == 2;
    return held;
}

/* Group g with all slots goes with a sender through any calls; the other group makes its own in between. */
static int goes_with_a_sender(uint32_t g, uint32_t seed)
{
    enum { SLOTS = 5, TURNS = 60 };
    uint8_t sender[SENDER], any[TURNS * 4];
    uint32_t slot, i;
    int held = done(START, SLOTS, 9, 9, 0) && levelspruce_sender_start(SLOTS, 9, sender, sizeof sender) == 0;

    noise(any, sizeof any, seed);
    for (slot = 0; slot < SLOTS; slot++)
        held = held && done(CLAIM, g, slot, 0, 0);
    for (i = 0; held && i < TURNS; i++) {
        const uint8_t *b = any + 4 * i;

        slot = b[1] % (SLOTS + 1);
        switch (b[0] % 5) {
        case 0: held = say(ADD, g, slot, 0, 0) == levelspruce_sender_add(sender, SENDER, slot); break;
        case 1: held = say(REMOVE, g, slot, 0, 0) == levelspruce_sender_remove(sender, SENDER, slot); break;
        case 2: held = say(REPORT, g, 0, b[2], b[3]) == levelspruce_sender_report(sender, SENDER, 0, b[2], b[3]); break;
        case 3: held = say(LAPSE, g, 0, 0, 0) == levelspruce_sender_lapse(sender, SENDER); break;
        default: held = say(EPOCH, g, b[1] % 3, b[2], b[3] % 3) == levelspruce_sender_start_epoch(sender, SENDER, b[1] % 3, b[2], b[3] % 3); break;
        }
        held = held && say(CLAIM, 1 - g, b[2] % SLOTS, 0, 0) == 14 && done(EPOCH, 1 - g, 0, b[3], 0) && same_as(sender, g, SLOTS);
    }
    return held;
}

static void beside_a_sender(void)
{
    uint32_t seed;
    int held = 1;

    for (seed = 0; seed < 200; seed++)
        held = held && goes_with_a_sender(seed % 2, seed + 100);
    check("a group that owns all slots is a sender, answer by answer and byte by byte", held);
}

enum { PORTS = 3, P = 5, W = 48, EPOCHS = 24 };

/* A group with a receiver at its far end that has a port for each slot that it owns, and no delay between them. */
struct circuit {
    uint32_t group, ports, slots[PORTS];
    uint8_t rows[LEVELSPRUCE_RECEIVER_ROWS(PORTS)][LEVELSPRUCE_ROW_BYTES], store[LEVELSPRUCE_STORE_BYTES(PORTS, P, W)];
    uint8_t sent[256][LEVELSPRUCE_EPOCH_FRAMES * PORTS * P]; /* the client's bytes by epoch */
    int sure, wrong;
};

static void fetch(struct circuit *c)
{
    uint8_t got[LEVELSPRUCE_OUTPUT_BYTES(PORTS, P)], report[LEVELSPRUCE_REPORT_BYTES];

    if (levelspruce_receiver_fetch(c->rows, LEVELSPRUCE_RECEIVER_ROWS(c->ports), c->store, LEVELSPRUCE_STORE_BYTES(c->ports, P, W), got,
                                   LEVELSPRUCE_OUTPUT_BYTES(c->ports, P), report, sizeof report)
        != 0)
        c->wrong++;
    else if (report[LEVELSPRUCE_REPORT_MARK] == LEVELSPRUCE_MARK_SURE && report[LEVELSPRUCE_REPORT_X] == c->ports
             && memcmp(got, c->sent[report[LEVELSPRUCE_REPORT_EPOCH]], LEVELSPRUCE_EPOCH_FRAMES * c->ports * P) == 0)
        c->sure++;
    else if (report[LEVELSPRUCE_REPORT_MARK] != LEVELSPRUCE_MARK_NONE)
        c->wrong++;
}

/* One epoch of a group: its packets right after its start, then its sixteen frames. */
static int goes_out(struct circuit *c, uint32_t seed)
{
    uint8_t h4[PORTS][LEVELSPRUCE_PACKET_BYTES], member[P], *sent;
    uint32_t i, k, x;
    int held = done(EPOCH, c->group, 0, 0xFF, 0) && done(RANKS, c->group, 0, 0, 0);

    x = out.now[GUARD + LEVELSPRUCE_RANKS_X];
    sent = c->sent[out.now[GUARD + LEVELSPRUCE_RANKS_EPOCH]];
    noise(sent, LEVELSPRUCE_EPOCH_FRAMES * PORTS * P, seed);
    for (i = 0; i < c->ports; i++) {
        held = held && done(PACKET, c->group, c->slots[i], 0, 0);
        memcpy(h4[i], lent_bytes(&out), sizeof h4[i]);
    }
    for (k = 0; k < LEVELSPRUCE_EPOCH_FRAMES; k++)
        for (i = 0; i < c->ports; i++) {
            uint8_t answer;

            held = held
                && levelspruce_card_payload(lent_bytes(&state), STATE, c->group, c->slots[i], P, sent + k * x * P, (size_t)x * P, member, sizeof member) == 0;
            answer = levelspruce_receiver_frame(c->rows, LEVELSPRUCE_RECEIVER_ROWS(c->ports), i, 0, h4[i][k], member, P, c->store,
                                                LEVELSPRUCE_STORE_BYTES(c->ports, P, W));
            held = held && (answer == LEVELSPRUCE_ANSWER_DONE || answer == LEVELSPRUCE_ANSWER_STEP);
            fetch(c);
        }
    return held;
}

static int joins(struct circuit *c)
{
    uint32_t i;
    int held = levelspruce_receiver_start(c->ports, P, W, LEVELSPRUCE_STORE_BYTES(c->ports, P, W), c->rows, LEVELSPRUCE_RECEIVER_ROWS(c->ports)) == 0;

    for (i = 0; i < c->ports; i++)
        held = held && joined(c->group, c->slots[i]);
    return held && done(REPORT, c->group, 0, 0, 0) && done(LAPSE, c->group, 0, 0, 0);
}

/* Two groups, interleaved, each with its own receiver. Group 1 has an epoch more than group 0 now and then, and group 0 claims and releases a
 * slot that is nobody's. */
static void received(void)
{
    static struct circuit first = { .group = 0, .ports = 2, .slots = { 4, 1 } }, second = { .group = 1, .ports = 3, .slots = { 0, 5, 2 } };
    uint32_t epoch;
    int held = done(START, 6, 250, 77, 0) && joins(&first) && joins(&second);

    for (epoch = 0; epoch < EPOCHS; epoch++) {
        held = held && goes_out(&first, epoch + 1) && goes_out(&second, epoch + 1001) && say(CLAIM, 1, 4, 0, 0) == 14 && done(CLAIM, 0, 3, 0, 0)
            && done(RELEASE, 0, 3, 0, 0) && done(REPORT, 0, 0, 0, epoch & 1);
        if (epoch % 3 == 0)
            held = held && goes_out(&second, epoch + 2001);
    }
    check("two groups on one card, each received by ports for its own slots: every report is sure, with its client's bytes",
          held && first.wrong == 0 && second.wrong == 0 && first.sure >= EPOCHS - 4 && second.sure >= EPOCHS + EPOCHS / 3 - 4);
}

/* Each call on these bytes gives one of its answers (a bit for each number), and changes only what it may. */
static int copes(const uint8_t *junk)
{
    static const unsigned answers[CALLS] = {
        0x1, 0x4003, 0xC003, 0x400F, 0x400F, 0x3, 0x7, 0x3, 0x4307, 0x4017, 0x3, 0x3, 0x3, 0x3
    }; /* 9 and 4 where the junk is of VC-12 */
    static const uint32_t slots[] = { 0, 1, 31, 63, 64, 255, UINT32_MAX };
    size_t i;
    uint32_t g;
    int which, afresh, answer, held = 1;

    for (afresh = 1; afresh >= 0; afresh--) /* each call on the junk itself, and then one after the other */
        for (which = CLAIM; which < CALLS; which++)
            for (g = 0; g <= LEVELSPRUCE_GROUPS; g++)
                for (i = 0; i < COUNT(slots); i++) {
                    if (afresh || (which == CLAIM && i == 0 && g == 0))
                        memcpy(lent_bytes(&state), junk, STATE);
                    if (which == PAYLOAD && g < LEVELSPRUCE_GROUPS)
                        held = held && done(RANKS, g, 0, 0, 0);
                    answer = which == PAYLOAD                  ? say(which, g, slots[i], 5, out.now[GUARD + LEVELSPRUCE_RANKS_X])
                           : which == REPORT || which == EPOCH ? say(which, g, slots[i] & 1, 5, slots[i] & 1)
                                                               : say(which, g, slots[i], 0, 0);
                    held = held && answer >= 0 && (answers[which] >> answer & 1) && (g < LEVELSPRUCE_GROUPS || answer == 1);
                    held = held && (which < BOARD || which == OWNED || answer == 1 || out.now[GUARD] <= LEVELSPRUCE_SLOTS_MOST); /* the count comes first */
                }
    return held;
}

static void junk_states(void)
{
    uint8_t junk[STATE];
    unsigned seed, j;
    int even = 1, mixed = 1, small = 1;

    for (seed = 0; seed < 256; seed++) {
        memset(junk, (int)seed, STATE);
        even = even && copes(junk);
        noise(junk, STATE, seed + 1);
        mixed = mixed && copes(junk);
        for (j = 0; j < STATE; j++)
            junk[j] &= 3;
        small = small && copes(junk);
    }
    check("a state of one byte value throughout is coped with", even);
    check("states of any bytes are coped with", mixed);
    check("states of small bytes are coped with", small);
    memset(lent_bytes(&state), 0xFF, STATE);
    check("an owner byte other than 1 and 2 is nobody's",
          owns(0, 0, NULL) && owns(1, 0, NULL) && say(PACKET, 0, 0, 0, 0) == 14 && done(CLAIM, 1, 0, 0, 0) && owns(1, 1, BYTES(1)));
    check("a state whose GID is no bit makes no packet", say(PACKET, 1, 0, 0, 0) == LEVELSPRUCE_ANSWER_FIELD);
    check("a slot not below the group's own count is 1, whatever the other's",
          done(START, 4, 0, 0, 0) && (lent_bytes(&state)[ROW + 384] = 2) == 2 && say(CLAIM, 0, 2, 0, 0) == 1 && done(CLAIM, 1, 2, 0, 0));
}

int main(void)
{
    noise(state.now, sizeof state.now, 1);
    noise(frame.now, sizeof frame.now, 2);
    starting();
    first_tests();
    owning();
    reports();
    examples();
    results();
    releases();
    beside_a_sender();
    received();
    junk_states();
    return tally();
}
