/*
 * Tests of the receiver's calls over the archive: every answer number, the order of the refusals, that a call changes
 * only what it may, 01's limits, a link of three ports with delays, damage, a failed port and a new beginning, what is
 * read out, and states that no call wrote.
 */
#include <levelspruce.h>

#include <string.h>

#include "check.h"

enum { LENT_MOST = 5248 };
#include "lent.h"

enum { START, FRAME, FETCH, PORTS, REPLY, CALLS };
enum { TAGS = 4096, EPOCH = 16, INTO_STEP = 32 };
enum { A = LEVELSPRUCE_WORD_ADD, N = LEVELSPRUCE_WORD_NORM, E = LEVELSPRUCE_WORD_EOS, I = LEVELSPRUCE_WORD_IDLE, D = LEVELSPRUCE_WORD_DNU };
enum { NONE = LEVELSPRUCE_MARK_NONE, HELD = LEVELSPRUCE_MARK_HELD, DOUBTFUL = LEVELSPRUCE_MARK_DOUBTFUL, SURE = LEVELSPRUCE_MARK_SURE };
enum { OK = LEVELSPRUCE_PORT_OK, FAIL = LEVELSPRUCE_PORT_FAIL };

static const uint32_t wide[] = { 256, 257, 65537, UINT32_MAX };

static struct lent state, store, payload, out, result; /* the result is a record, ports or a reply */

/* The group of the test: its ports, P and W. */
static uint32_t count, p, w;

/* The numbers of a call, and the lengths of what it is lent. */
struct given {
    uint32_t a, b, c;
    size_t rows, store, payload, out, result;
};

#define RECORD (lent_bytes(&result))

static uint8_t *lent(struct lent *l, size_t n)
{
    return n ? lent_bytes(l) : NULL;
}

/* The call itself; a length of 0 goes with NULL. */
static uint8_t call(int which, struct given g)
{
    uint8_t(*rows)[16] = g.rows ? (uint8_t(*)[16])lent(&state, g.rows) : NULL;
    uint8_t *s = lent(&store, g.store), *y = lent(&payload, g.payload), *o = lent(&out, g.out), *r = lent(&result, g.result);

    switch (which) {
    case START: return levelspruce_receiver_start(g.a, g.b, g.c, g.store, rows, g.rows);
    case FRAME: return levelspruce_receiver_frame(rows, g.rows, g.a, g.b, (uint8_t)g.c, y, g.payload, s, g.store);
    case FETCH: return levelspruce_receiver_fetch(rows, g.rows, s, g.store, o, g.out, r, g.result);
    case PORTS: return levelspruce_receiver_ports((const uint8_t(*)[16])rows, g.rows, (uint8_t(*)[8])r, g.result);
    default: return levelspruce_receiver_reply((const uint8_t(*)[16])rows, g.rows, (uint8_t)g.a, r, g.result);
    }
}

static size_t report_bytes(void)
{
    const uint8_t *b = RECORD + LEVELSPRUCE_REPORT_COUNT;

    return (size_t)b[0] << 24 | (size_t)b[1] << 16 | (size_t)b[2] << 8 | b[3];
}

/* The bytes of the state that this answer may change. */
static size_t state_may(int which, int answer, struct given g)
{
    if (which == START && answer == 4)
        return g.rows ? LEVELSPRUCE_ROW_BYTES : 0;
    if ((which == START && answer == 0) || (which == FRAME && (answer == 0 || answer == 10 || answer == 12)))
        return g.rows * LEVELSPRUCE_ROW_BYTES;
    return which == FETCH && answer == 0 && RECORD[LEVELSPRUCE_REPORT_MARK] != NONE ? g.rows * LEVELSPRUCE_ROW_BYTES : 0;
}

/* The answer, or -1 where a byte changed that this answer must leave. */
static int ask(int which, struct given g)
{
    int answer;

    noise(out.now, sizeof out.now, 5);
    noise(result.now, sizeof result.now, 6);
    remember(&state);
    remember(&store);
    remember(&payload);
    remember(&out);
    remember(&result);
    answer = call(which, g);
    return untouched(&payload) && stands(&state, state_may(which, answer, g)) && stands(&store, which == FRAME && answer == 0 ? g.store : 0)
                && stands(&out, which == FETCH && answer == 0 ? report_bytes() : 0)
                && stands(&result, which >= FETCH && answer == 0 ? g.result * (which == PORTS ? LEVELSPRUCE_PORT_BYTES : 1) : 0)
             ? answer
             : -1;
}

/* Right lengths for the group of the test. */
static struct given right(int which, uint32_t a, uint32_t b, uint32_t c)
{
    struct given g = { a, b, c, LEVELSPRUCE_RECEIVER_ROWS(count), LEVELSPRUCE_STORE_BYTES(count, p, w), p, LEVELSPRUCE_OUTPUT_BYTES(count, p), 0 };

    g.result = which == FETCH ? LEVELSPRUCE_REPORT_BYTES : which == PORTS ? count : LEVELSPRUCE_REPLY_BYTES;
    return g;
}

static int say(int which, uint32_t a, uint32_t b, uint32_t c)
{
    return ask(which, right(which, a, b, c));
}

/* A group of the test starts. */
static int started(uint32_t ports, uint32_t payload_bytes, uint32_t window)
{
    count = ports;
    p = payload_bytes;
    w = window;
    return say(START, ports, payload_bytes, window) == 0;
}

/* What ports send. A word that is more by OTHER_GID goes with the other GID. */
enum { OTHER_GID = 256 };

struct source {
    uint32_t word, number;
};

static const struct source quiet = { I, 255 };

static uint32_t epoch_of(uint32_t tag)
{
    return (tag + 8) % TAGS / EPOCH;
}

/* Byte i of the client's group frame that is sent with a tag. */
static uint8_t client(uint32_t tag, uint32_t i)
{
    return (uint8_t)((tag * 37 + tag / 256 * 11 + i * 101 + 5) ^ i >> 3);
}

static uint8_t h4_of(uint32_t tag, struct source s)
{
    uint8_t h4[LEVELSPRUCE_PACKET_BYTES];

    if (levelspruce_packet_write(epoch_of(tag % TAGS), s.word % OTHER_GID, 1 - s.word / OTHER_GID, 255, 0, s.number, 0, h4, sizeof h4)
        != LEVELSPRUCE_ANSWER_DONE)
        check("a packet is written", 0);
    return h4[(tag + 8) % EPOCH];
}

/* Hands a port's frame with this tag, its H4 damaged by these bits: of x active members, the port's number is its rank. */
static int hand_damaged(uint32_t port, uint32_t tag, struct source s, uint32_t x, uint8_t bits)
{
    uint32_t j;

    for (j = 0; j < p; j++)
        payload.now[GUARD + j] = client(tag % TAGS, j * x + s.number);
    return say(FRAME, port, 0, h4_of(tag, s) ^ bits);
}

static int hand(uint32_t port, uint32_t tag, struct source s, uint32_t x)
{
    return hand_damaged(port, tag, s, x, 0);
}

/* Hands frames with the tags from first on until before last; whether all get this answer. */
static int hands(uint32_t port, uint32_t first, uint32_t last, int answer)
{
    int held = 1;

    for (; first < last; first++)
        held = held && hand(port, first, quiet, 1) == answer;
    return held;
}

/* A port not in step comes into it, by frames from this tag (of MFI1 0) on. */
static int into_step(uint32_t port, uint32_t first)
{
    return hands(port, first, first + INTO_STEP - 1, 12) && hands(port, first + INTO_STEP - 1, first + INTO_STEP, 0);
}

/* Fetches; whether the report has this mark and epoch and, if not held, this X and a byte count to go with it. Held ones are so for a refused packet. */
static int fetched(int mark, uint32_t epoch, uint32_t x)
{
    return say(FETCH, 0, 0, 0) == 0 && RECORD[LEVELSPRUCE_REPORT_MARK] == mark && RECORD[LEVELSPRUCE_REPORT_EPOCH] == epoch && RECORD[LEVELSPRUCE_REPORT_X] == x
        && report_bytes() == EPOCH * x * p && RECORD[LEVELSPRUCE_REPORT_CAUSE] == (mark == HELD ? LEVELSPRUCE_CAUSE_REFUSED : LEVELSPRUCE_CAUSE_NONE);
}

static int none_due(void)
{
    return fetched(NONE, 0, 0);
}

/* Byte 'which' of what is shown of a port; -1 where the call was refused. */
static int shown(uint32_t port, int which)
{
    return say(PORTS, 0, 0, 0) == 0 ? RECORD[port * LEVELSPRUCE_PORT_BYTES + (uint32_t)which] : -1;
}

static int readable(uint32_t port)
{
    return shown(port, LEVELSPRUCE_PORT_READABLE);
}

static int port_is(uint32_t port, int member_state, int number, int in_step, int joined, int is_readable, int failed, int word)
{
    const int expected[LEVELSPRUCE_PORT_BYTES] = { member_state, number, in_step, joined, is_readable, failed, word, 0 };
    int i, held = 1;

    for (i = 0; i < LEVELSPRUCE_PORT_BYTES; i++)
        held = held && shown(port, i) == expected[i];
    return held;
}

static int reply_is(uint32_t epoch, int mst, int rs_ack)
{
    return say(REPLY, epoch, 0, 0) == 0 && RECORD[LEVELSPRUCE_REPLY_MST] == mst && RECORD[LEVELSPRUCE_REPLY_RS_ACK] == rs_ack;
}

/* A start with these numbers is answered 4 with any lengths, and leaves an empty group if there is a row. */
static int empties(uint32_t ports, uint32_t payload_bytes, uint32_t window)
{
    struct given g = { ports, payload_bytes, window, 0, 0, 0, 0, 0 };
    int held = started(2, 3, 16) && ask(START, g) == 4 && into_step(0, 0);

    g.rows = 1;
    held = held && ask(START, g) == 4 && say(FRAME, 0, 0, 0) == 1;
    held = held && started(2, 3, 16) && say(START, ports, payload_bytes, window) == 4 && say(FRAME, 0, 0, 0) == 1 && say(FRAME, 0, 1, 0) == 1;
    count = 0;
    return held && none_due() && say(PORTS, 0, 0, 0) == 0 && reply_is(0, 255, 0);
}

/* A start in range, of state rows and a store that fit by this much. */
static int starts_by(long rows, long store_bytes)
{
    struct given g = right(START, count, p, w);

    g.rows = (size_t)((long)g.rows + rows);
    g.store = (size_t)((long)g.store + store_bytes);
    return ask(START, g);
}

static void starting(void)
{
    static uint8_t first[LENT_MOST];
    size_t i;
    int held = empties(0, 3, 16) && empties(65, 3, 16) && empties(2, 0, 16) && empties(2, 2341, 16) && empties(2, 3, 15) && empties(2, 3, 2049);

    for (i = 0; i < COUNT(wide); i++)
        held = held && empties(wide[i], 3, 16) && empties(2, wide[i] | 1 << 12, 16) && empties(2, 3, wide[i] | 1 << 12);
    check("start answers 4 for ports, P or W out of range, and leaves an empty group", held);
    held = started(2, 3, 16) && starts_by(-1, 0) == 9 && starts_by(1, 0) == 9 && starts_by(-11, 0) == 9 && starts_by(0, -1) == 9 && starts_by(0, 1) == 9
        && starts_by(-1, 1) == 9 && into_step(0, 0);
    check("start answers 9 for wrong rows or a wrong store, after 4, and leaves the state", held);
    check("1 and 64 ports, P of 1 and 2340, W of 16 and 2048 start",
          started(1, 1, 16) && started(64, 1, 16) && started(1, 2340, 16) && started(1, 1, 2048) && started(64, 2340, 2048));
    held = started(3, 2, 40);
    memcpy(first, lent_bytes(&state), LEVELSPRUCE_RECEIVER_ROWS(3) * LEVELSPRUCE_ROW_BYTES);
    noise(lent_bytes(&state), LENT_MOST, 77);
    check("start writes all of state, whatever was there",
          held && started(3, 2, 40) && memcmp(first, lent_bytes(&state), LEVELSPRUCE_RECEIVER_ROWS(3) * LEVELSPRUCE_ROW_BYTES) == 0);
    check("after a start all ports are IDLE and nothing is due",
          port_is(0, 0, 255, 0, 0, 0, 0, 255) && port_is(2, 0, 255, 0, 0, 0, 0, 255) && reply_is(0, 255, 0) && reply_is(255, 255, 0) && none_due());
}

/* A list of times, or none. */
struct times {
    const uint32_t *each;
    size_t count;
};

static const struct times none = { NULL, 0 };

/* A start with times, of state rows and a store that fit the group by this much; -1 where a byte changed that the answer must leave. */
static int asked_as(uint32_t kind, uint32_t ports, struct times hold_off, struct times restore, long rows, long store_bytes)
{
    struct given g = right(START, ports, p, w);
    int answer;

    g.rows = (size_t)((long)g.rows + rows);
    g.store = (size_t)((long)g.store + store_bytes);
    remember(&state);
    answer = levelspruce_receiver_start_as(kind, ports, p, w, g.store, hold_off.each, hold_off.count, restore.each, restore.count,
                                           g.rows ? (uint8_t(*)[16])lent_bytes(&state) : NULL, g.rows);
    return stands(&state, state_may(START, answer, g)) ? answer : -1;
}

/* A group of the test starts with times. */
static int started_as(uint32_t ports, uint32_t payload_bytes, uint32_t window, const uint32_t *hold_off, const uint32_t *restore)
{
    const struct times h = { hold_off, ports }, r = { restore, ports };

    count = ports;
    p = payload_bytes;
    w = window;
    return asked_as(LEVELSPRUCE_KIND_H4, ports, h, r, 0, 0) == 0;
}

/* The lists of a start of three ports: its answer with the first so many of the numbers as hold-off, as restoring and as both. */
static int lists_give(const uint32_t *numbers, size_t n, int answer)
{
    const struct times list = { numbers, n };

    return asked_as(0, 3, list, none, 0, 0) == answer && asked_as(0, 3, none, list, 0, 0) == answer && asked_as(0, 3, list, list, 0, 0) == answer;
}

static void starting_with_times(void)
{
    static const uint32_t most[] = { 0, LEVELSPRUCE_TIMER_MOST, 1, 2 }, above[] = { LEVELSPRUCE_TIMER_MOST + 1, 65536, 65535, UINT32_MAX };
    static uint8_t first[LENT_MOST];
    const struct times three = { most, 3 }, two = { most, 2 };
    size_t bytes = LEVELSPRUCE_RECEIVER_ROWS(3) * LEVELSPRUCE_ROW_BYTES, i, at, n;
    int held = started(3, 2, 40);

    memcpy(first, lent_bytes(&state), bytes);
    noise(lent_bytes(&state), LENT_MOST, 78);
    check("a start with empty lists is a start",
          held && asked_as(LEVELSPRUCE_KIND_H4, 3, none, none, 0, 0) == 0 && memcmp(first, lent_bytes(&state), bytes) == 0);
    held = asked_as(1, 3, none, none, 0, 0) == 4 && asked_as(256, 3, three, three, 0, 0) == 4 && asked_as(UINT32_MAX, 3, none, none, 0, 0) == 4
        && asked_as(0, 0, none, none, 0, 0) == 4 && asked_as(0, 65, none, none, 0, 0) == 4 && asked_as(0, 259, three, three, 0, 0) == 4;
    check("with times it answers 4 for a kind that is not named, and for ports out of range", held);
    held = 1;
    for (i = 0; i < COUNT(above); i++)
        for (n = 1; n <= 4; n++) /* in lists of any length */
            for (at = 0; at < n; at++) {
                uint32_t numbers[4] = { 0, 1, 2, 3 };

                numbers[at] = above[i];
                held = held && lists_give(numbers, n, 4);
            }
    check("it answers 4 for a count above 5,000 wherever it stands, before 9", held && asked_as(1, 3, two, two, 1, 1) == 4);
    held = started(3, 2, 40) && lists_give(most, 1, 9) && lists_give(most, 2, 9) && lists_give(most, 4, 9) && asked_as(0, 3, three, two, 0, 0) == 9
        && asked_as(0, 3, two, three, 0, 0) == 9 && asked_as(0, 3, three, three, 1, 0) == 9 && asked_as(0, 3, three, three, -1, 0) == 9
        && asked_as(0, 3, three, none, 0, 1) == 9 && asked_as(0, 3, none, three, 0, -1) == 9 && memcmp(first, lent_bytes(&state), bytes) == 0;
    check("it answers 9 for a list of another length, wrong rows or a wrong store, and leaves the state", held && into_step(0, 0));
    check("5,000 starts, and a list may be empty beside another",
          lists_give(most, 3, 0) && asked_as(0, 3, three, none, 0, 0) == 0 && port_is(0, 0, 255, 0, 0, 0, 0, 255) && reply_is(0, 255, 0) && none_due());
}

/* The answer to a call that is right but for one length, which is off by this much. */
static int off(int which, uint32_t a, uint32_t b, uint32_t c, size_t where, long by)
{
    struct given g = right(which, a, b, c);
    size_t *length = (size_t *)(void *)((char *)&g + where);

    *length = (size_t)((long)*length + by);
    return ask(which, g);
}

/* Each length too small and too large in its turn, of a call that is else right; a larger output is right. */
static int lengths_are_9(int which, uint32_t a, uint32_t b, uint32_t c)
{
    static const long by[] = { -1, 1, 7 };
    int held = 1;
    size_t i;

    for (i = 0; i < COUNT(by); i++)
        held = held && off(which, a, b, c, offsetof(struct given, rows), by[i]) == 9
            && (which == FRAME || off(which, a, b, c, offsetof(struct given, result), by[i]) == 9)
            && (which > FETCH || off(which, a, b, c, offsetof(struct given, store), by[i]) == 9)
            && (which != FRAME || off(which, a, b, c, offsetof(struct given, payload), by[i]) == 9)
            && (which != FETCH || by[i] > 0 || off(which, a, b, c, offsetof(struct given, out), by[i]) == 9);
    return held;
}

/* Hands so many frames whose own tags begin with this one, each with another MFI1; whether all get this answer. */
static int breaks(uint32_t port, uint32_t first, uint32_t frames, int answer)
{
    int held = 1;

    for (; frames > 0; first++, frames--)
        held = held && hand_damaged(port, first, quiet, 1, 5) == answer;
    return held;
}

/* One port with W of 16 whose window is full: its next frame, tag 72, is outside. An epoch is due. Its last frames broke the
 * count. */
static int full_after(uint32_t broken)
{
    return started(1, 3, 16) && into_step(0, 0) && hands(0, 32, 72 - broken, 0) && breaks(0, 72 - broken, broken, 0);
}

static int full(void)
{
    return full_after(0);
}

static void refusals(void)
{
    struct given far;
    size_t i;
    int held = full();

    far = right(FRAME, 1, 1, 0);
    far.rows = far.store = far.payload = 1;
    held = held && ask(FRAME, far) == 1 && say(FRAME, 1, 0, h4_of(72, quiet)) == 1;
    for (i = 0; i < COUNT(wide); i++)
        held = held && say(FRAME, wide[i], 0, h4_of(72, quiet)) == 1 && say(FRAME, wide[i], 1, 0) == 1;
    check("a frame of a port not below the count is answered 1, before 9 and 10", held);
    check("a frame with wrong lengths is answered 9, before 10, 12 and 11",
          lengths_are_9(FRAME, 0, 1, 0) && lengths_are_9(FRAME, 0, 0, 0) && lengths_are_9(FRAME, 0, 0, h4_of(72, quiet)) && hand(0, 72, quiet, 1) == 11);
    check("fetch, ports and reply answer 9 for wrong lengths, fetch whether a report is due or not",
          lengths_are_9(FETCH, 0, 0, 0) && lengths_are_9(PORTS, 0, 0, 0) && lengths_are_9(REPLY, 0, 0, 0) && fetched(SURE, 4, 0)
              && lengths_are_9(FETCH, 0, 0, 0) && none_due());
    check("a flagged frame is answered 10, before 12 and 11", full() && say(FRAME, 0, 1, h4_of(72, quiet)) == 10 && full() && say(FRAME, 0, 1, 0) == 10
                                                                  && full() && say(FRAME, 0, UINT32_MAX, 0) == 10 && full() && say(FRAME, 0, 256, 0) == 10);
    check("a fourth frame in a row that breaks the count is answered 12, before 11", full_after(3) && breaks(0, 72, 1, 12));
    check("a third, and a right frame after three, are answered 11", full_after(2) && breaks(0, 72, 2, 11) && full_after(3) && hand(0, 72, quiet, 1) == 11);
    check("a frame answered 11 is not counted", full_after(2) && breaks(0, 72, 5, 11) && fetched(SURE, 4, 0) && breaks(0, 72, 1, 0) && breaks(0, 73, 1, 12));
}

static void stepping(void)
{
    int held = started(1, 2, 16) && hands(0, 5, 16, 12) && into_step(0, 16), i;

    check("the 32nd right frame from MFI1 0 on is in step", held);
    check("P5: tag 4095 then 0 keeps step", started(1, 2, 16) && into_step(0, 4064) && hand(0, 4096, quiet, 1) == 0 && port_is(0, 0, 255, 1, 0, 1, 0, 255));
    check("P5: tag 4095 then 1 keeps step, with tag 0 counted", started(1, 2, 16) && into_step(0, 4064) && hand(0, 4097, quiet, 1) == 0
                                                                    && port_is(0, 0, 255, 1, 0, 1, 0, 255) && hand(0, 4097, quiet, 1) == 0
                                                                    && hands(0, 4098, 4104, 0) && breaks(0, 4104, 3, 0) && breaks(0, 4107, 1, 12));
    check("4095, then frames that carry 1, 2, 3, 4: 0 0 0 12",
          started(1, 2, 16) && into_step(0, 4064) && hands(0, 4097, 4100, 0) && hand(0, 4100, quiet, 1) == 12 && port_is(0, 0, 255, 0, 0, 0, 0, 255));
    held = 1;
    for (i = 0; i < 16; i++) /* any three in a row, of any nibbles */
        held = held && started(1, 2, 16) && into_step(0, 0) && hands(0, 32, 32 + (uint32_t)i, 0) && breaks(0, 32 + (uint32_t)i, 3, 0)
            && hands(0, 35 + (uint32_t)i, 36 + (uint32_t)i, 0) && breaks(0, 36 + (uint32_t)i, 3, 0) && breaks(0, 39 + (uint32_t)i, 1, 12);
    check("three frames in a row that break the count keep step, and a right one sets them to none", held);
    check("coming into step is strict", started(1, 2, 16) && hands(0, 0, 31, 12) && breaks(0, 31, 1, 12) && hands(0, 32, 63, 12) && hand(0, 63, quiet, 1) == 0
                                            && started(1, 2, 16) && hands(0, 0, 16, 12) && hand(0, 32, quiet, 1) == 12 && hand(0, 17, quiet, 1) == 12
                                            && hands(0, 33, 48, 12) && into_step(0, 48));
    check("a frame that breaks the count can be the first of a new 32", started(1, 2, 16) && hands(0, 0, 20, 12) && into_step(0, 160));
    held = started(1, 2, 16) && into_step(0, 0) && hands(0, 32, 33, 0);
    for (i = 0; i < 4; i++) /* own tags 33 to 36, with frames that carry 160 */
        held = held && hand(0, 160, quiet, 1) == (i < 3 ? 0 : 12);
    check("a fourth break of MFI1 0 is the first of a new 32", held && hands(0, 161, 191, 12) && hand(0, 191, quiet, 1) == 0);
    check("an earlier one is not", started(1, 2, 16) && into_step(0, 0) && hands(0, 32, 34, 0) && hand(0, 160, quiet, 1) == 0 && hands(0, 35, 40, 0));
    check("a flagged frame ends a run", started(1, 2, 16) && hands(0, 0, 31, 12) && say(FRAME, 0, 1, h4_of(31, quiet)) == 10
                                            && port_is(0, 0, 255, 0, 0, 0, 1, 255) && hand(0, 31, quiet, 1) == 12 && port_is(0, 0, 255, 0, 0, 0, 0, 255));
}

/* From an epoch's start on a port in step brings the frames of so many tags later, where one nibble of each packet that is
 * named by a bit comes damaged: how many of them are answered 0 before the first 12. */
static uint32_t kept_by_switch(uint32_t port, uint32_t start, uint32_t by, unsigned damaged)
{
    uint32_t k;

    for (k = 0; k < 200; k++)
        if (hand_damaged(port, start + by + k, quiet, 1, k % EPOCH == 4 && (damaged >> k / EPOCH & 1) ? 0x20 : 0) != 0)
            break;
    return k;
}

/* The same for a port that has not joined, since receiving has not begun beside a silent port, and for one that has. */
static int switch_loses_after(uint32_t by, unsigned damaged, uint32_t frames)
{
    int held = started(2, 2, 16) && into_step(0, 16) && hands(0, 48, 56, 0) && kept_by_switch(0, 56, by, damaged) == frames;

    return held && started(1, 2, 300) && into_step(0, 16) && hands(0, 48, 120, 0) && readable(0) == 1 && kept_by_switch(0, 120, by, damaged) == frames;
}

static void switching(void)
{
    check("a switch by whole multiframes at an epoch's start: 31 frames 0, the 32nd 12",
          switch_loses_after(EPOCH, 0, 31) && switch_loses_after(3 * EPOCH, 0, 31) && switch_loses_after(TAGS - EPOCH, 0, 31));
    check("with the first packet damaged it is lost sixteen frames later", switch_loses_after(EPOCH, 1, 47));
    check("with the second damaged two more whole packets are needed", switch_loses_after(EPOCH, 2, 63));
    check("with no switch step is kept, whatever comes damaged", switch_loses_after(0, 0, 200) && switch_loses_after(0, 0xFFF, 200));
}

/* The H4 byte of the frame with a tag, of a packet whose word is the sum of three: the CRC has no start value, so three packets
 * that are one but for their words make one more. */
static uint8_t h4_with_sum(uint32_t tag, uint32_t a, uint32_t b, uint32_t c)
{
    const struct source first = { a, 255 }, second = { b, 255 }, third = { c, 255 };

    return h4_of(tag, first) ^ h4_of(tag, second) ^ h4_of(tag, third);
}

/* Whether a packet with this sum as its word is read with this number, and two of it under another MFI2 lose step. */
static int odd_with_sum(uint32_t a, uint32_t b, uint32_t c, int number)
{
    uint8_t h4[LEVELSPRUCE_PACKET_BYTES], fields[LEVELSPRUCE_FIELDS_BYTES];
    uint32_t k;
    int held;

    for (k = 0; k < EPOCH; k++)
        h4[k] = h4_with_sum(72 + k, a, b, c);
    held = levelspruce_packet_read(h4, sizeof h4, fields, sizeof fields) == number && started(1, 2, 64) && into_step(0, 16) && hands(0, 48, 56, 0);
    for (k = 0; k < 2 * EPOCH; k++)
        held = held && say(FRAME, 0, 0, h4_with_sum(72 + k, a, b, c)) == (k < 2 * EPOCH - 1 ? 0 : 12);
    return held;
}

/* One port sends IDLE, and in the packet of epoch 6 EOS with number 0, under the MFI2 of so many epochs later. */
static int one_of_epoch(uint32_t later)
{
    static const struct source active = { E, 0 };
    uint32_t k;
    int held = started(1, 2, 64) && into_step(0, 16) && hands(0, 48, 88, 0) && fetched(SURE, 5, 0);

    for (k = 88; k < 104; k++)
        held = held && hand(0, k + later * EPOCH, active, 1) == 0;
    return held && fetched(SURE, 6, 0);
}

static void other_numbers(void)
{
    uint32_t last;

    check("an odd packet is one whatever its word: FIXED, unassigned", odd_with_sum(A, N, E, 7) && odd_with_sum(N, E, I, 6));
    check("a packet with the right number between two odd ones starts the row anew", started(1, 2, 300) && into_step(0, 16) && hands(0, 48, 56, 0)
                                                                                         && hands(0, 72, 88, 0) && hands(0, 72, 88, 0) && hands(0, 104, 120, 0)
                                                                                         && hands(0, 104, 120, 0) && kept_by_switch(0, 120, EPOCH, 0) == 31);
    /* own MFI1 7, carried 0: the nibble, of the CRC, is then MFI2's high one */
    last = h4_of(103, quiet) / 16 * 256u;
    check("the end of a second one, with MFI1 0, is the first of a new 32", started(1, 2, 64) && into_step(0, 16) && hands(0, 48, 56, 0) && hands(0, 72, 103, 0)
                                                                                && hand_damaged(0, 103, quiet, 1, 7) == 12 && hands(0, last + 1, last + 31, 12)
                                                                                && hand(0, last + 31, quiet, 1) == 0);
    check("a packet with its own number tells word and number, and RS-Ack turns", one_of_epoch(0) && port_is(0, OK, 0, 1, 1, 1, 0, E) && reply_is(0, 0x7F, 1));
    check("with another it tells neither, and the epoch that it rules is held",
          one_of_epoch(1) && port_is(0, 0, 255, 1, 1, 1, 0, I) && reply_is(0, 255, 0) && hands(0, 104, 120, 0) && fetched(HELD, 7, 0)
              && port_is(0, 0, 255, 1, 1, 1, 0, I) && reply_is(0, 255, 0) && hands(0, 120, 136, 0) && fetched(SURE, 8, 0));
}

/* Two ports, of which the first is handed the tags from 0 on, the second those from 16 on. */
static void beginning(void)
{
    check("latest tags W-16 apart begin", started(2, 2, 32) && into_step(1, 16) && !readable(1) && into_step(0, 0) && readable(0) && readable(1));
    check("latest tags W-15 apart do not begin",
          started(2, 2, 32) && into_step(1, 16) && hands(1, 48, 49, 0) && into_step(0, 0) && !readable(0) && !readable(1));
    check("until they are nearer", hand(0, 32, quiet, 1) == 0 && readable(0) && readable(1));
    check("receiving begins beside a flagged port, not beside a silent one",
          started(2, 2, 32) && into_step(0, 0) && !readable(0) && say(FRAME, 1, 1, 0) == 10 && readable(0) && !readable(1));
}

/* Whether exactly the P + 1 bytes of one frame stand anew in the store, somewhere, with this H4 byte. */
static int stored(uint8_t h4)
{
    size_t from = 0, at, whole = (size_t)p + 1, end = LEVELSPRUCE_STORE_BYTES(count, p, w);
    const uint8_t *s = lent_bytes(&store);

    for (at = 0; at < end; at += whole)
        if (memcmp(s + at, store.before + GUARD + at, whole) != 0)
            from = at + 1;
    if (from == 0)
        return 0;
    at = from - 1;
    return memcmp(s, store.before + GUARD, at) == 0 && memcmp(s + at + whole, store.before + GUARD + at + whole, end - at - whole) == 0
        && memcmp(s + at, lent_bytes(&payload), p) == 0 && s[at + p] == h4;
}

static void window(void)
{
    uint32_t tag;
    int held = started(1, 3, 16) && into_step(0, 0), kept = 1;

    for (tag = 32; tag < 40; tag++)
        held = held && hand(0, tag, quiet, 1) == 0 && untouched(&store) && shown(0, LEVELSPRUCE_PORT_JOINED) == 0;
    check("a frame in step of a port that has not joined is answered 0 and dropped", held);
    for (; tag < 72; tag++) {
        memset(lent_bytes(&store), 0xEE, LEVELSPRUCE_STORE_BYTES(count, p, w)); /* so that each frame shows */
        kept = kept && hand(0, tag, quiet, 1) == 0 && stored(h4_of(tag, quiet)) && shown(0, LEVELSPRUCE_PORT_JOINED) == 1;
    }
    check("a port joins at its first epoch start, and its frames are stored up to W-1 after the window's first", kept);
    check("a joined port's tag W after the window's first gives 11", full() && hand(0, 72, quiet, 1) == 11 && hand(0, 72, quiet, 1) == 11);
    check("and is stored when it is handed again after a report", fetched(SURE, 4, 0) && hand(0, 72, quiet, 1) == 0 && stored(h4_of(72, quiet)));
    check("an output longer than need be is right",
          full() && off(FETCH, 0, 0, 0, offsetof(struct given, out), 100) == 0 && RECORD[LEVELSPRUCE_REPORT_MARK] == SURE);
}

/* Two ports send these from the start on; whether the first report has this mark and cause. */
static int caused(struct source a, struct source b, int mark, int cause)
{
    uint32_t tag;
    int held = started(2, 2, 64);

    for (tag = 0; tag < 72 && held; tag++)
        held = hand(0, tag, a, 2) == (tag < 31 ? 12 : 0) && hand(1, tag, b, 2) == (tag < 31 ? 12 : 0);
    return held && say(FETCH, 0, 0, 0) == 0 && RECORD[LEVELSPRUCE_REPORT_MARK] == mark && RECORD[LEVELSPRUCE_REPORT_EPOCH] == 4
        && RECORD[LEVELSPRUCE_REPORT_X] == (mark == HELD ? 0 : 2) && RECORD[LEVELSPRUCE_REPORT_CAUSE] == cause;
}

static void causes(void)
{
    const struct source norm = { N, 0 }, last = { E, 1 }, same = { E, 0 }, other = { E + OTHER_GID, 1 }, above = { N, 1 }, gap = { E, 2 };

    check("a sure report has no cause", caused(norm, last, SURE, LEVELSPRUCE_CAUSE_NONE));
    check("held since numbers repeat, since GID differs, since EOS is below the highest", caused(norm, same, HELD, LEVELSPRUCE_CAUSE_REPEATED)
                                                                                              && caused(norm, other, HELD, LEVELSPRUCE_CAUSE_GID)
                                                                                              && caused(same, above, HELD, LEVELSPRUCE_CAUSE_EOS));
    check("of two clauses the first is named", caused(same, same, HELD, LEVELSPRUCE_CAUSE_REPEATED));
    check("doubtful with a gap in the numbers", caused(norm, gap, DOUBTFUL, LEVELSPRUCE_CAUSE_NUMBERS));
}

/* Three ports behind delays that differ by W-16. */
enum { DELAYS = 3, P3 = 5, W3 = 64 };
/* Frame times to the first report at the latest: the slowest port's delay, 47 frames to its step, the next epoch's start
 * after the foremost tag, which the slowest port reaches a delay later, the epoch gathered and the one reported. */
enum { FIRST_REPORT = W3 - EPOCH + 47 + EPOCH + W3 - EPOCH + 2 * EPOCH };
static const uint32_t delay[DELAYS] = { 20, 0, W3 - EPOCH };
static const struct source sends[DELAYS] = { { N, 1 }, { E, 2 }, { N, 0 } };

static struct line {
    uint32_t first;    /* tag of the first frame */
    uint32_t time;     /* frame times so far */
    uint32_t failed;   /* frame times for which port 1 still comes flagged */
    uint32_t damaged;  /* the epoch whose packet of port 0 comes damaged */
    uint32_t place;    /* in which nibble */
    uint32_t next;     /* the epoch that the next report must have, or 256 before the first */
    uint32_t marks[4]; /* reports by mark */
    int held;          /* all was as it should be so far */
} line;

/* Whether the output is the sixteen group frames of an epoch, or of two of its three members alone. */
static int output_is(uint32_t epoch, uint32_t x)
{
    uint32_t k, j, from = (epoch * EPOCH + TAGS - 8) % TAGS;
    const uint8_t *o = lent_bytes(&out);
    int held = 1;

    for (k = 0; k < EPOCH; k++)
        for (j = 0; j < x * P3; j++)
            held = held && o[k * x * P3 + j] == client((from + k) % TAGS, j / x * DELAYS + j % x);
    return held;
}

/* All due reports; every one must be of the next epoch. */
static void take_reports(void)
{
    for (;;) {
        uint32_t epoch, mark, x;

        line.held = line.held && say(FETCH, 0, 0, 0) == 0;
        mark = RECORD[LEVELSPRUCE_REPORT_MARK];
        epoch = RECORD[LEVELSPRUCE_REPORT_EPOCH];
        x = RECORD[LEVELSPRUCE_REPORT_X];
        if (!line.held || mark == NONE)
            return;
        line.marks[mark & 3]++;
        line.held = mark <= SURE && (line.next == 256 || line.next == epoch) && report_bytes() == EPOCH * x * P3
                 && x
                        == (mark == SURE   ? 3
                            : mark == HELD ? 0
                                           : 2)
                 && output_is(epoch, x) && (mark != HELD || untouched(&out)) && (line.damaged > 255 || (mark == HELD) == (epoch == (line.damaged + 1) % 256))
                 && RECORD[LEVELSPRUCE_REPORT_CAUSE]
                        == (mark == SURE         ? LEVELSPRUCE_CAUSE_NONE
                            : mark == DOUBTFUL   ? LEVELSPRUCE_CAUSE_UNSEEN
                            : line.damaged > 255 ? LEVELSPRUCE_CAUSE_LACKING
                                                 : LEVELSPRUCE_CAUSE_REFUSED);
        line.next = (epoch + 1) % 256;
    }
}

/* A frame time: each port's frame, if it has one yet, and all reports due after each. */
static void frame_time(void)
{
    uint32_t port, tag;
    int answer;

    for (port = 0; port < DELAYS && line.held; port++) {
        if (line.time < delay[port])
            continue;
        tag = (line.first + line.time - delay[port]) % TAGS;
        if (port == 1 && line.failed > 0) {
            line.failed--;
            line.held = say(FRAME, port, 1, 0) == 10;
        } else if (port == 0 && epoch_of(tag) == line.damaged && (tag + 8) % EPOCH == line.place) {
            line.held = hand_damaged(port, tag, sends[port], DELAYS, 0x40) == 0;
        } else {
            answer = hand(port, tag, sends[port], DELAYS);
            line.held = answer == 0 || answer == 12;
        }
        take_reports();
    }
    line.time++;
}

/* So many frame times; whether all was as it should be, with at least so many reports of each mark. */
static int runs(uint32_t times, uint32_t held, uint32_t doubtful, uint32_t sure)
{
    memset(line.marks, 0, sizeof line.marks);
    while (times-- > 0 && line.held)
        frame_time();
    return line.held && line.marks[HELD] >= held && line.marks[DOUBTFUL] >= doubtful && line.marks[SURE] >= sure && (held || line.marks[HELD] == 0)
        && (doubtful || line.marks[DOUBTFUL] == 0) && (sure || line.marks[SURE] == 0);
}

static void lines_from(uint32_t first)
{
    memset(&line, 0, sizeof line);
    line.first = first;
    line.damaged = line.next = 256;
    line.held = 1;
}

static void link_of_three(void)
{
    uint32_t port;
    int held = started(DELAYS, P3, W3);

    lines_from(4000);
    check("a link of three ports with delays W-16 apart gives sure epochs, each once and in order",
          held && runs(FIRST_REPORT, 0, 0, 1) && runs(10 * EPOCH, 0, 0, 10));
    check("its ports are OK under their numbers", port_is(0, OK, 1, 1, 1, 1, 0, N) && port_is(1, OK, 2, 1, 1, 1, 0, E) && port_is(2, OK, 0, 1, 1, 1, 0, N));
    check("the reply says so, and RS-Ack has turned once",
          reply_is(0, 0x1F, 1) && reply_is(32, 0x1F, 1) && reply_is(1, 255, 1) && reply_is(8, 255, 1) && reply_is(255, 255, 1));
    for (line.place = 0; line.place < EPOCH && held; line.place++) { /* MFI2 stands at 8 and 9 */
        line.damaged = (line.next + 6) % 256;
        held = runs(12 * EPOCH, 1, 0, 11) && line.marks[HELD] == 1;
    }
    check("a packet damaged in any nibble holds the epoch after it alone, with no byte of output", held);
    check("and changes no state and no reply", port_is(0, OK, 1, 1, 1, 1, 0, N) && reply_is(0, 0x1F, 1));
    line.damaged = 256;
    line.failed = 10 * EPOCH;
    /* what waits is still sure; the epoch of which the port, ruled active, lacks frames is held; those after it are doubtful */
    check("beside a flagged port an epoch is held, and the next are doubtful with the bytes of the others",
          runs(10 * EPOCH, 1, 3, 1) && line.marks[HELD] == 1 && port_is(1, FAIL, 2, 0, 0, 0, 1, E) && reply_is(0, 0x3F, 1));
    check("which comes back into step and joins", runs(12 * EPOCH, 0, 1, 3) && port_is(1, OK, 2, 1, 1, 1, 0, E) && reply_is(0, 0x1F, 1));
    check("sure epochs follow without end, over tag 4095", runs(260 * EPOCH, 0, 0, 260));
    for (port = 0; port < DELAYS; port++)
        held = held && say(FRAME, port, 1, 0) == 10;
    check("when no port is readable receiving stops", held && none_due() && !readable(0) && !readable(1) && !readable(2));
    check("and member states and RS-Ack stay", port_is(0, OK, 1, 0, 0, 0, 1, N) && reply_is(0, 0x1F, 1));
    lines_from(1234);
    check("receiving begins anew, and gives sure epochs", runs(FIRST_REPORT + 10 * EPOCH, 0, 0, 10) && reply_is(0, 0x1F, 1));
}

/* An epoch of ports in step with these packets, and its report. */
static int told(uint32_t epoch, const struct source *sends_now)
{
    uint32_t k, port;
    int held = 1;

    for (k = 0; k < EPOCH; k++)
        for (port = 0; port < count; port++)
            held = held && hand(port, epoch * EPOCH - 8 + k, sends_now[port], 0) == 0;
    return held && say(FETCH, 0, 0, 0) == 0 && RECORD[LEVELSPRUCE_REPORT_MARK] != NONE && RECORD[LEVELSPRUCE_REPORT_EPOCH] == epoch % 256;
}

/* A group with times, of which the first epoch is gathered, with all ports IDLE. The next is epoch 4. */
static int waits_from(uint32_t ports, const uint32_t *hold_off, const uint32_t *restore)
{
    uint32_t port;
    int held = started_as(ports, 2, 64, hold_off, restore);

    for (port = 0; port < ports; port++)
        held = held && into_step(port, 0);
    for (port = 0; port < ports; port++)
        held = held && hands(port, 32, 56, 0);
    return held;
}

static int state_is(uint32_t port, int member_state, int number, int waiting)
{
    return shown(port, LEVELSPRUCE_PORT_STATE) == member_state && shown(port, LEVELSPRUCE_PORT_NUMBER) == number
        && shown(port, LEVELSPRUCE_PORT_WAITING) == waiting;
}

enum { WAITS_FOR_NONE, HOLD_OFF, RESTORING };

/* One port with a hold-off of 2 and a wait-to-restore of 3, which has its number 5, has none to claim, or is IDLE. */
static int both_edges(void)
{
    static const uint32_t hold_off[] = { 2 }, restore[] = { 3 };
    static const struct source has = { A, 5 }, lost = { A, 64 };
    static const char reports[] = "r--r---rrrrIr", states[] = "OOOOOOFFFFOIO", waits[] = "NHHNHHNRRRNNN";
    int held = waits_from(1, hold_off, restore), rs_ack = 0;
    uint32_t i;

    for (i = 0; reports[i] != '\0'; i++) {
        const struct source *s = reports[i] == 'r' ? &has : reports[i] == '-' ? &lost : &quiet;
        int state_now = states[i] == 'O' ? OK : states[i] == 'F' ? FAIL : LEVELSPRUCE_PORT_IDLE;
        int number = state_now == OK ? 5 : state_now == FAIL ? (int)s->number : 255;

        held = held && told(4 + i, s)
            && state_is(0, state_now, number,
                        waits[i] == 'H'   ? HOLD_OFF
                        : waits[i] == 'R' ? RESTORING
                                          : WAITS_FOR_NONE)
            && reply_is(0, state_now == OK ? 0xFB : 0xFF, rs_ack);
        rs_ack = rs_ack || reports[i + 1] == 'I'; /* ADD becomes IDLE */
    }
    return held;
}

/* A port with this hold-off loses its claim; whether it is FAIL at the report after so many. */
static int falls_after(uint32_t hold_off)
{
    static const uint32_t restore[] = { 0 };
    static const struct source has = { A, 5 }, lost = { A, 64 };
    int held = waits_from(1, &hold_off, restore) && told(4, &has);
    uint32_t i;

    for (i = 0; i < hold_off; i++)
        held = held && told(5 + i, &lost) && state_is(0, OK, 5, HOLD_OFF);
    return held && told(5 + i, &lost) && state_is(0, FAIL, 64, WAITS_FOR_NONE);
}

static void waiting(void)
{
    static const uint32_t three_none[] = { 3, 0 }, zeros[] = { 0, 0, 0 }, nines[] = { 9, 9, 9 };
    static const struct source alone[] = { { A, 5 }, { I, 255 } }, both[] = { { A, 64 }, { A, 5 } };
    static const struct source up[] = { { A, 0 }, { A, 1 }, { A, 2 } }, chain[] = { { A, 64 }, { A, 0 }, { A, 1 } };
    static const struct source reverse[] = { { A, 2 }, { A, 1 }, { A, 0 } }, removed[] = { { A, 1 }, { A, 0 }, { I, 255 } };
    static const struct source swapped[] = { { A, 1 }, { A, 0 }, { A, 2 } };
    uint32_t i;
    int held;

    check("a port is FAIL, and OK again, at the very reports that its times say", both_edges());
    check("a hold-off is counted in reports, and not by the epoch's number", falls_after(1) && falls_after(300));
    held = waits_from(2, three_none, zeros) && told(4, alone) && state_is(0, OK, 5, WAITS_FOR_NONE);
    for (i = 0; i < 3; i++)
        held = held && told(5 + i, both) && state_is(0, OK, 5, HOLD_OFF) && state_is(1, FAIL, 5, WAITS_FOR_NONE);
    check("a port keeps its number against others until its hold-off ends",
          held && told(8, both) && state_is(0, FAIL, 64, WAITS_FOR_NONE) && state_is(1, OK, 5, WAITS_FOR_NONE));
    held = waits_from(3, nines, nines) && told(4, reverse) && told(5, removed) && state_is(0, OK, 1, WAITS_FOR_NONE) && state_is(1, OK, 0, WAITS_FOR_NONE)
        && state_is(2, LEVELSPRUCE_PORT_IDLE, 255, WAITS_FOR_NONE);
    check("a removal with the ports in reverse order holds nobody", held);
    check("nor does a swap", waits_from(3, nines, nines) && told(4, up) && told(5, swapped) && state_is(0, OK, 1, WAITS_FOR_NONE)
                                 && state_is(1, OK, 0, WAITS_FOR_NONE) && state_is(2, OK, 2, WAITS_FOR_NONE));
    check("a chain is held whole", waits_from(3, nines, nines) && told(4, up) && told(5, chain) && state_is(0, OK, 0, HOLD_OFF) && state_is(1, OK, 1, HOLD_OFF)
                                       && state_is(2, OK, 2, HOLD_OFF) && reply_is(0, 0x1F, 0));
}

/* An empty group, and rows that do not fit. */
static void odd_states(void)
{
    static const uint8_t bytes[][2] = { { 1, 0 }, { 1, 65 }, { 2, 10 }, { 4, 9 }, { 5, 15 } };
    struct given none = { 0, 0, 0, 0, 0, 3, 0, LEVELSPRUCE_REPORT_BYTES };
    size_t i;
    int held = ask(FRAME, none) == 1 && ask(FETCH, none) == 0;

    none.result = LEVELSPRUCE_REPLY_BYTES;
    held = held && ask(REPLY, none) == 0 && RECORD[0] == 255 && RECORD[1] == 0 && ask(FETCH, none) == 9;
    none.result = 0;
    check("no rows are an empty group", held && ask(PORTS, none) == 0 && ask(REPLY, none) == 9);
    held = 1;
    for (i = 0; i < COUNT(bytes); i++) { /* count, P or W out of range */
        held = held && started(2, 3, 16);
        state.now[GUARD + bytes[i][0]] = bytes[i][1];
        held = held && say(FRAME, 0, 0, 0) == 1 && say(FETCH, 0, 0, 0) == 9 && say(PORTS, 0, 0, 0) == 9 && reply_is(0, 255, 0);
        none = right(FETCH, 0, 0, 0);
        none.store = 0;
        held = held && ask(FETCH, none) == 0 && RECORD[0] == NONE;
    }
    check("rows whose count, P or W is out of range are an empty group", held);
    {
        size_t rows = LEVELSPRUCE_RECEIVER_ROWS(1) * LEVELSPRUCE_ROW_BYTES;
        int places = 0;

        for (i = LEVELSPRUCE_ROW_BYTES; i < rows; i++) { /* behind the group's own row */
            held = held && started(1, 3, 16);
            state.now[GUARD + i] = 32;
            places += shown(0, LEVELSPRUCE_PORT_STATE) == 32;
        }
        check("a state byte that no call returned is shown as it is", held && places == 1);
    }
}

/* Each call on these rows, with right lengths, gives one of its answers, and changes only what it may. */
static int copes(const uint8_t *junk)
{
    static const unsigned answers[CALLS] = { 0x1, 0x1C01, 0x1, 0x1, 0x1 };
    static const uint8_t h4[] = { 0x00, 0x01, 0x10, 0x11, 0x08, 0xF7, 0xFF };
    size_t bytes = LEVELSPRUCE_RECEIVER_ROWS(count) * LEVELSPRUCE_ROW_BYTES, i;
    int which, afresh, answer, held = 1;

    for (afresh = 1; afresh >= 0; afresh--) /* each call on the junk itself, and then one after the other */
        for (i = 0; i < COUNT(h4); i++)
            for (which = CALLS - 1; which > START; which--) {
                if (afresh || (i == 0 && which == CALLS - 1))
                    memcpy(state.now + GUARD + 6, junk + 6, bytes - 6); /* all but kind, count, P and W */
                answer = say(which, which == FRAME ? (uint32_t)i % count : 31, i == 5, h4[i]);
                held = held && answer >= 0 && (answers[which] >> answer & 1);
                held = held && (which != FETCH || (RECORD[LEVELSPRUCE_REPORT_MARK] <= SURE && report_bytes() <= LEVELSPRUCE_OUTPUT_BYTES(count, p)));
            }
    return held;
}

static void junk_states(void)
{
    static uint8_t junk[LENT_MOST];
    unsigned seed, j;
    int even = started(3, 2, 17), mixed = even, small = even;

    for (seed = 0; seed < 256; seed++) {
        memset(junk, (int)seed, LENT_MOST);
        even = even && copes(junk);
        noise(junk, LENT_MOST, seed + 1);
        mixed = mixed && copes(junk);
        for (j = 0; j < LENT_MOST; j++)
            junk[j] &= 33; /* 0 and 1 often, and counts in step */
        small = small && copes(junk);
    }
    check("a state of one byte value throughout is coped with", even);
    check("states of any bytes are coped with", mixed);
    check("states of flags and counts in step are coped with", small);
}

int main(void)
{
    noise(state.now, sizeof state.now, 1);
    noise(store.now, sizeof store.now, 2);
    noise(payload.now, sizeof payload.now, 3);
    starting();
    starting_with_times();
    refusals();
    stepping();
    switching();
    other_numbers();
    beginning();
    window();
    causes();
    link_of_three();
    waiting();
    odd_states();
    junk_states();
    return tally();
}
