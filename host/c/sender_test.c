/*
 * Tests of the sender's calls over the archive: every answer number, the order of the refusals, that a refusal
 * changes no byte, the worked examples P8 to P11, what an epoch keeps, and states that no call wrote.
 */
#include <levelspruce.h>

#include <string.h>

#include "check.h"

enum { LENT_MOST = 2 * LEVELSPRUCE_PAYLOAD_MOST };
#include "lent.h"

enum { STATE = LEVELSPRUCE_SENDER_BYTES, NONE = LEVELSPRUCE_RANK_NONE };
enum { A = LEVELSPRUCE_WORD_ADD, N = LEVELSPRUCE_WORD_NORM, E = LEVELSPRUCE_WORD_EOS, I = LEVELSPRUCE_WORD_IDLE, D = LEVELSPRUCE_WORD_DNU };
enum { START, ADD, REMOVE, REPORT, LAPSE, EPOCH, PACKET, PAYLOAD, BOARD, GOING, RANKS, CALLS };

static const char *const call_name[CALLS] = { "start",  "add",     "remove", "report",      "lapse", "start of an epoch",
                                              "packet", "payload", "board",  "board going", "ranks" };

static const size_t result_bytes[CALLS] = {
    [PACKET] = LEVELSPRUCE_PACKET_BYTES, [BOARD] = LEVELSPRUCE_BOARD_BYTES, [GOING] = LEVELSPRUCE_BOARD_BYTES, [RANKS] = LEVELSPRUCE_RANKS_BYTES
};
static const size_t wrong[] = { 0, 1, STATE - 1, STATE + 1 };
static const uint32_t wide[] = { 256, 257, 65537, UINT32_MAX };

static struct lent state, frame, out;

#define done(...) (say(__VA_ARGS__) == LEVELSPRUCE_ANSWER_DONE)
#define BYTES(...) ((const uint8_t[]){ __VA_ARGS__ })

/* The call itself; a length of 0 goes with NULL. */
static uint8_t call(int which, uint32_t a, uint32_t b, uint32_t c, size_t sl, size_t fl, size_t ol)
{
    uint8_t *s = sl ? lent_bytes(&state) : NULL, *f = fl ? lent_bytes(&frame) : NULL, *o = ol ? lent_bytes(&out) : NULL;

    switch (which) {
    case START: return levelspruce_sender_start(a, b, s, sl);
    case ADD: return levelspruce_sender_add(s, sl, a);
    case REMOVE: return levelspruce_sender_remove(s, sl, a);
    case REPORT: return levelspruce_sender_report(s, sl, a, b, c);
    case LAPSE: return levelspruce_sender_lapse(s, sl);
    case EPOCH: return levelspruce_sender_start_epoch(s, sl, a, b, c);
    case PACKET: return levelspruce_sender_packet(s, sl, a, o, ol);
    case PAYLOAD: return levelspruce_sender_payload(s, sl, a, b, f, fl, o, ol);
    case BOARD: return levelspruce_sender_board(s, sl, o, ol);
    case GOING: return levelspruce_sender_board_going(s, sl, o, ol);
    default: return levelspruce_sender_ranks(s, sl, o, ol);
    }
}

/* The answer, or -1 where a byte changed that this answer must leave. */
static int ask(int which, uint32_t a, uint32_t b, uint32_t c, size_t sl, size_t fl, size_t ol)
{
    int answer;

    noise(out.now, sizeof out.now, 5);
    remember(&state);
    remember(&frame);
    remember(&out);
    answer = call(which, a, b, c, sl, fl, ol);
    return untouched(&frame) && stands(&out, which > EPOCH && answer == 0 ? ol : 0)
                && stands(&state, which <= EPOCH && (answer == 0 || (which == START && answer == 4 && sl == STATE)) ? STATE : 0)
             ? answer
             : -1;
}

/* With right lengths; payload takes a slot, P and X. */
static int say(int which, uint32_t a, uint32_t b, uint32_t c)
{
    return which == PAYLOAD ? ask(which, a, b, c, STATE, (size_t)b * c, b) : ask(which, a, b, c, STATE, 0, result_bytes[which]);
}

/* A group with its first slots added, in order. */
static int added(uint32_t count, uint32_t first_epoch, uint32_t adds)
{
    uint32_t i;
    int held = done(START, count, first_epoch, 0);

    for (i = 0; i < adds; i++)
        held = held && done(ADD, i, 0, 0);
    return held;
}

/* A group of up to eight slots, all active and no wait open. */
static int active(uint32_t count, uint32_t first_epoch)
{
    return added(count, first_epoch, count) && done(REPORT, 0, 0, 0) && done(LAPSE, 0, 0, 0);
}

static int board_is(int which, int count, int wait, const uint8_t *rows)
{
    const uint8_t *b = lent_bytes(&out);
    int i, held = done(which, 0, 0, 0) && b[LEVELSPRUCE_BOARD_COUNT] == count && b[LEVELSPRUCE_BOARD_WAIT] == wait;

    for (i = 0; i < LEVELSPRUCE_SLOTS_MOST; i++)
        held = held && b[LEVELSPRUCE_BOARD_ROWS + 2 * i] == (i < count ? rows[2 * i] : I)
            && b[LEVELSPRUCE_BOARD_ROWS + 2 * i + 1] == (i < count ? rows[2 * i + 1] : LEVELSPRUCE_NUMBER_IDLE);
    return held;
}

static int ranks_are(int count, int begun, int epoch, int x, const uint8_t *each)
{
    const uint8_t *r = lent_bytes(&out);
    int i, held = done(RANKS, 0, 0, 0) && r[LEVELSPRUCE_RANKS_COUNT] == count && r[LEVELSPRUCE_RANKS_BEGUN] == begun && r[LEVELSPRUCE_RANKS_EPOCH] == epoch
               && r[LEVELSPRUCE_RANKS_X] == x;

    for (i = 0; i < LEVELSPRUCE_SLOTS_MOST; i++)
        held = held && r[LEVELSPRUCE_RANKS_EACH + i] == (i < count ? each[i] : NONE);
    return held;
}

/* The slot's packet is the one that levelspruce_packet_write gives, with GID 1, MST AB, RS-Ack 0 and no reserved bit. */
static int packet_is(uint32_t slot, uint32_t epoch, uint32_t word, uint32_t number)
{
    uint8_t h4[LEVELSPRUCE_PACKET_BYTES];

    return levelspruce_packet_write(epoch, word, 1, 0xAB, 0, number, 0, h4, sizeof h4) == LEVELSPRUCE_ANSWER_DONE && done(PACKET, slot, 0, 0)
        && memcmp(lent_bytes(&out), h4, sizeof h4) == 0;
}

static int payload_is(uint32_t slot, uint32_t p, uint32_t x, uint32_t rank)
{
    uint32_t i;
    int held = done(PAYLOAD, slot, p, x);

    for (i = 0; i < p; i++)
        held = held && out.now[GUARD + i] == (rank == NONE ? 0 : frame.now[GUARD + i * x + rank]);
    return held;
}

static int empties(uint32_t count)
{
    return active(2, 0) && say(START, count, 256, 0) == 4 && say(ADD, 0, 0, 0) == 1 && say(REMOVE, 1, 0, 0) == 1 && board_is(BOARD, 0, 0, NULL);
}

static void starting(void)
{
    uint8_t first[STATE];
    size_t i;
    int empty = empties(0) && empties(65), lengths = active(2, 0), eight = lengths;

    for (i = 0; i < COUNT(wrong); i++)
        lengths = lengths && ask(START, 0, 256, 0, wrong[i], 0, 0) == 4 && ask(START, 65, 0, 0, wrong[i], 0, 0) == 4 && ask(START, 2, 0, 0, wrong[i], 0, 0) == 9
               && ask(START, 2, 256, 0, wrong[i], 0, 0) == 9;
    for (i = 0; i < COUNT(wide); i++) {
        eight = eight && say(START, 2, wide[i], 0) == 8;
        empty = empty && empties(wide[i]);
    }
    check("start answers 4 for a count out of range, before 8, and leaves an empty group", empty);
    check("start answers 9 for a wrong length, after 4 and before 8", lengths);
    check("start answers 8 for a first epoch above 255", eight);
    check("1 and 64 slots start, with all slots IDLE, no wait and no epoch", done(START, 1, 255, 0) && board_is(BOARD, 1, 0, BYTES(I, 255))
                                                                                 && board_is(GOING, 1, 0, BYTES(I, 255)) && ranks_are(1, 0, 255, 0, BYTES(NONE))
                                                                                 && done(START, 64, 0, 0) && done(ADD, 63, 0, 0));
    empty = done(START, 3, 9, 0);
    memcpy(first, lent_bytes(&state), STATE);
    noise(lent_bytes(&state), STATE, 77);
    check("start writes all of state, whatever was there", empty && done(START, 3, 9, 0) && memcmp(first, lent_bytes(&state), STATE) == 0);
}

/* Every call but start: a wrong state length is 9, beside right arguments and beside wrong ones. */
static void state_lengths(void)
{
    char name[80];
    int which, held;
    size_t i;

    for (which = ADD; which < CALLS; which++) {
        held = active(2, 0);
        for (i = 0; i < COUNT(wrong); i++)
            held = held && ask(which, 0, 1, 0, wrong[i], 0, which == PAYLOAD ? 1 : result_bytes[which]) == 9
                && ask(which, UINT32_MAX, UINT32_MAX, UINT32_MAX, wrong[i], 0, 0) == 9;
        sprintf(name, "%s answers 9 for a wrong state length, before all else", call_name[which]);
        check(name, held);
    }
}

static int far_slots_are_1(uint32_t count)
{
    size_t i;
    int held = say(ADD, count, 0, 0) == 1 && say(REMOVE, count, 0, 0) == 1;

    for (i = 0; i < COUNT(wide); i++)
        held = held && say(ADD, wide[i], 0, 0) == 1 && say(REMOVE, wide[i], 0, 0) == 1;
    return held;
}

static void commands(void)
{
    check("add and remove answer 1 for a slot not below the count, before 2",
          done(START, 64, 0, 0) && far_slots_are_1(64) && done(START, 2, 0, 0) && far_slots_are_1(2));
    check("add answers 2 for ADD, active and DNU",
          added(2, 0, 2) && say(ADD, 0, 0, 0) == 2 && active(2, 0) && say(ADD, 0, 0, 0) == 2 && done(REPORT, 0, 0xFF, 0) && say(ADD, 0, 0, 0) == 2);
    check("remove answers 2 for IDLE", done(START, 2, 0, 0) && say(REMOVE, 1, 0, 0) == 2);
    check("remove answers 0 for ADD, active and DNU", added(2, 0, 2) && done(REMOVE, 0, 0, 0) && board_is(BOARD, 2, 1, BYTES(I, 255, A, 0)) && active(2, 0)
                                                          && done(REMOVE, 1, 0, 0) && board_is(BOARD, 2, 1, BYTES(E, 0, I, 255)) && active(2, 0)
                                                          && done(REPORT, 0, 0xFF, 0) && done(REMOVE, 0, 0, 0) && board_is(BOARD, 2, 1, BYTES(I, 255, D, 0)));
    check("3 comes before 2",
          active(2, 0) && done(REMOVE, 0, 0, 0) && say(ADD, 0, 0, 0) == 3 && say(ADD, 1, 0, 0) == 3 && say(REMOVE, 0, 0, 0) == 3 && say(REMOVE, 1, 0, 0) == 3);
    check("1 comes before 3", far_slots_are_1(2));
    check("lapse answers 0 once and then 2", done(LAPSE, 0, 0, 0) && board_is(BOARD, 2, 0, BYTES(I, 255, E, 0)) && say(LAPSE, 0, 0, 0) == 2);
}

static void reports(void)
{
    size_t i;
    int report = active(2, 0), epoch = 1;

    for (i = 0; i < COUNT(wide); i++) {
        report = report && say(REPORT, wide[i], 0, 0) == 8 && say(REPORT, 0, wide[i], 0) == 8 && say(REPORT, 0, 0, wide[i]) == 8;
        epoch = epoch && say(EPOCH, wide[i], 0, 0) == 8 && say(EPOCH, 0, wide[i], 0) == 8 && say(EPOCH, 0, 0, wide[i]) == 8;
    }
    check("report answers 8 for a number above 255", report);
    check("the start of an epoch answers 8 for a GID or RS-Ack above 1 or an MST above 255",
          epoch && say(EPOCH, 2, 0, 0) == 8 && say(EPOCH, 0, 0, 2) == 8 && done(EPOCH, 1, 255, 1));
    check("an open wait ignores MST, and another RS-Ack closes it, by its lowest bit",
          active(2, 0) && done(REMOVE, 0, 0, 0) && done(REPORT, 0, 0xFF, 254) && board_is(BOARD, 2, 1, BYTES(I, 255, E, 0)) && done(REPORT, 0, 0xFF, 255)
              && board_is(BOARD, 2, 0, BYTES(I, 255, E, 0)));
    check("with no wait open the bit is remembered", done(REPORT, 0, 0, 0) && done(REMOVE, 1, 0, 0) && done(REPORT, 0, 0, 0)
                                                         && board_is(BOARD, 2, 1, BYTES(I, 255, I, 255)) && done(REPORT, 0, 0, 1)
                                                         && board_is(BOARD, 2, 0, BYTES(I, 255, I, 255)));
    check("MST speaks of the epoch's eight numbers, as they stood on arrival",
          added(3, 0, 3) && done(REPORT, 1, 0, 0) && board_is(BOARD, 3, 0, BYTES(A, 0, A, 1, A, 2)) && done(REPORT, 32, 0xBF, 0)
              && board_is(BOARD, 3, 1, BYTES(A, 1, E, 0, A, 2)));
}

static void examples(void)
{
    check("P8", added(2, 0, 2) && done(REPORT, 0, 0xBF, 0) && say(REMOVE, 0, 0, 0) == 3 && board_is(BOARD, 2, 1, BYTES(A, 1, E, 0)));
    check("P9", active(3, 0) && board_is(BOARD, 3, 0, BYTES(N, 0, N, 1, E, 2)) && done(REMOVE, 1, 0, 0) && board_is(BOARD, 3, 1, BYTES(N, 0, I, 255, E, 1)));
    check("P10", active(2, 0) && board_is(BOARD, 2, 0, BYTES(N, 0, E, 1)) && done(REPORT, 0, 0x7F, 0) && board_is(BOARD, 2, 0, BYTES(E, 0, D, 1)));
    check("P11", done(REPORT, 0, 0xFF, 0) && board_is(BOARD, 2, 0, BYTES(D, 0, D, 1)));
    check("DNU with OK becomes active, with no wait", done(REPORT, 0, 0x3F, 0) && board_is(BOARD, 2, 0, BYTES(N, 0, E, 1)));
}

static void results(void)
{
    int which, nine = active(2, 0), order = 1;

    for (which = BOARD; which <= RANKS; which++)
        nine = nine && ask(which, 0, 0, 0, STATE, 0, 0) == 9 && ask(which, 0, 0, 0, STATE, 0, result_bytes[which] - 1) == 9
            && ask(which, 0, 0, 0, STATE, 0, result_bytes[which] + 1) == 9;
    check("boards and ranks answer 9 for a wrong length of the result", nine);
    check("packet and payload answer 2 before the first epoch", say(PACKET, 0, 0, 0) == 2 && say(PAYLOAD, 0, 3, 0) == 2);
    for (which = 0; which < 2; which++) { /* before the first epoch, and in it */
        order = order && say(PACKET, 2, 0, 0) == 1 && ask(PACKET, UINT32_MAX, 0, 0, STATE, 0, 0) == 1 && ask(PACKET, 0, 0, 0, STATE, 0, 0) == 9
             && ask(PACKET, 0, 0, 0, STATE, 0, 15) == 9 && ask(PACKET, 0, 0, 0, STATE, 0, 17) == 9 && ask(PAYLOAD, 256, 0, 0, STATE, 1, 0) == 1
             && ask(PAYLOAD, 0, 0, 0, STATE, 1, 0) == 4 && ask(PAYLOAD, 0, 2341, 0, STATE, 1, 1) == 4 && ask(PAYLOAD, 0, UINT32_MAX, 0, STATE, 0, 0) == 4
             && ask(PAYLOAD, 0, 3, 0, STATE, 1, 3) == 9 && ask(PAYLOAD, 0, 3, 0, STATE, 0, 2) == 9 && ask(PAYLOAD, 0, 3, 0, STATE, 0, 4) == 9
             && ask(PAYLOAD, 0, 3, 0, STATE, 0, 0) == 9 && done(EPOCH, 1, 0xAB, 0);
    }
    check("packet and payload answer 1, 4 and 9 in this order, before 2", order);
    check("in the second epoch a frame of other than X x P bytes is 9", ask(PAYLOAD, 0, 3, 0, STATE, 5, 3) == 9 && ask(PAYLOAD, 0, 3, 0, STATE, 7, 3) == 9
                                                                            && ask(PAYLOAD, 0, 3, 0, STATE, 0, 3) == 9 && payload_is(0, 3, 2, 0));
}

/* What goes out in the first epoch of two active slots, number 255. */
static int first_epoch_stands(void)
{
    return packet_is(0, 255, N, 0) && packet_is(1, 255, E, 1) && board_is(GOING, 2, 0, BYTES(N, 0, E, 1)) && ranks_are(2, 1, 255, 0, BYTES(NONE, NONE))
        && payload_is(0, 7, 0, NONE) && payload_is(1, LEVELSPRUCE_PAYLOAD_MOST, 0, NONE);
}

static void epochs(void)
{
    check("the first epoch has X = 0 and sends zeros", active(2, 255) && done(EPOCH, 1, 0xAB, 0) && first_epoch_stands());
    check("commands between two starts do not show", done(REMOVE, 0, 0, 0) && first_epoch_stands() && done(REPORT, 0, 0, 1) && first_epoch_stands()
                                                         && done(ADD, 0, 0, 0) && first_epoch_stands() && done(REPORT, 0, 0, 1) && done(LAPSE, 0, 0, 0)
                                                         && first_epoch_stands());
    check("after 255 comes 0, with the new packets and payload by the old ones", done(EPOCH, 1, 0xAB, 0) && packet_is(0, 0, E, 1) && packet_is(1, 0, N, 0)
                                                                                     && ranks_are(2, 1, 0, 2, BYTES(0, 1)) && payload_is(0, 5, 2, 0)
                                                                                     && payload_is(1, 5, 2, 1));
    check("the payload of two active members is spread by rank", done(EPOCH, 1, 0xAB, 0) && ranks_are(2, 1, 1, 2, BYTES(1, 0)) && payload_is(0, 1, 2, 1)
                                                                     && payload_is(0, 756, 2, 1) && payload_is(1, 756, 2, 0) && payload_is(0, 2340, 2, 1)
                                                                     && payload_is(1, 2340, 2, 0));
    check("a DNU member has no rank and sends zeros", active(3, 0) && done(REPORT, 0, 0x5F, 0) && done(EPOCH, 1, 0xAB, 0) && packet_is(1, 0, D, 1)
                                                          && done(EPOCH, 0, 0, 1) && ranks_are(3, 1, 1, 2, BYTES(0, NONE, 1)) && payload_is(0, 9, 2, 0)
                                                          && payload_is(1, 9, 2, NONE) && payload_is(2, 9, 2, 1));
}

/* Each call on these bytes gives one of its answers (a bit for each number), and changes only what it may. */
static int copes(const uint8_t *junk)
{
    static const unsigned answers[CALLS] = { 0x1, 0xF, 0xF, 0x1, 0x5, 0x1, 0x307, 0x17, 0x1, 0x1, 0x1 }; /* 9 and 4 where the junk is of VC-12 */
    static const uint32_t slots[] = { 0, 1, 31, 63, 64, 255, UINT32_MAX };
    size_t i;
    int which, afresh, answer, held = 1;

    for (afresh = 1; afresh >= 0; afresh--) /* each call on the junk itself, and then one after the other */
        for (i = 0; i < COUNT(slots); i++)
            for (which = CALLS - 1; which > START; which--) {
                uint32_t number = which == REPORT ? slots[i] & 255 : which == EPOCH ? slots[i] & 1 : slots[i];

                if (afresh || (i == 0 && which == CALLS - 1))
                    memcpy(lent_bytes(&state), junk, STATE);
                held = held && done(RANKS, 0, 0, 0);
                answer = say(which, number, 5 + (which == EPOCH), which == PAYLOAD ? out.now[GUARD + LEVELSPRUCE_RANKS_X] : number & 1);
                held = held && answer >= 0 && (answers[which] >> answer & 1);
                held = held && (which < BOARD || out.now[GUARD] <= LEVELSPRUCE_SLOTS_MOST); /* the count comes first */
            }
    return held;
}

static void junk_states(void)
{
    uint8_t junk[STATE];
    unsigned seed, j;
    int even = 1, mixed = 1, small = 1;

    for (seed = 0; seed < 256; seed++) {
        memset(junk, (int)seed, STATE);
        even = even && copes(junk);
        noise(junk, STATE, seed + 1);
        mixed = mixed && copes(junk);
        for (j = 0; j < STATE; j++)
            junk[j] &= 3;
        small = small && copes(junk);
    }
    check("a state of one byte value throughout is coped with", even);
    check("states of any bytes are coped with", mixed);
    check("states of small bytes are coped with", small);
    memset(lent_bytes(&state), 0xFF, STATE);
    check("a state whose GID is no bit makes no packet", say(PACKET, 0, 0, 0) == LEVELSPRUCE_ANSWER_FIELD);
}

int main(void)
{
    noise(state.now, sizeof state.now, 1);
    noise(frame.now, sizeof frame.now, 2);
    starting();
    state_lengths();
    commands();
    reports();
    examples();
    results();
    epochs();
    junk_states();
    return tally();
}
