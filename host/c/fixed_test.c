/*
 * Tests of fixed groups over the archive, that is, of virtual concatenation without LCAS: every answer of both packet calls, starts
 * of every kind, groups in any order of numbers over unequal delays, and all that holds their reports.
 */
#include <levelspruce.h>

#include <string.h>

#include "check.h"

enum { LENT_MOST = 64 };
#include "lent.h"

enum { PACKET = LEVELSPRUCE_PACKET_BYTES, BYTES = LEVELSPRUCE_FIELDS_BYTES, EPOCH = LEVELSPRUCE_EPOCH_FRAMES };
enum { SQ_HIGH = 6, SQ_LOW, MFI2_HIGH, MFI2_LOW, WORD_PLACE };
enum { HELD = LEVELSPRUCE_MARK_HELD, DOUBTFUL = LEVELSPRUCE_MARK_DOUBTFUL, SURE = LEVELSPRUCE_MARK_SURE };

/* ---- packets */

/* SQ 5 in epoch 58 */
static const uint8_t example[PACKET] = { 0x08, 0x09, 0x0A, 0x0B, 0x0C, 0x0D, 0x0E, 0x5F, 0x30, 0xA1, 0x02, 0x03, 0x04, 0x05, 0x06, 0x07 };

static void by_hand(uint8_t *h4, uint32_t epoch, uint32_t sq)
{
    uint32_t i;

    for (i = 0; i < PACKET; i++)
        h4[i] = (uint8_t)((i + 8) % 16);
    h4[SQ_HIGH] |= (uint8_t)(sq / 16 << 4);
    h4[SQ_LOW] |= (uint8_t)(sq % 16 << 4);
    h4[MFI2_HIGH] |= (uint8_t)(epoch / 16 << 4);
    h4[MFI2_LOW] |= (uint8_t)(epoch % 16 << 4);
}

static int writes(uint32_t epoch, uint32_t sq, const uint8_t *expected)
{
    struct lent h4;

    lend(&h4, NULL, 0);
    return levelspruce_packet_write_fixed(epoch, sq, lent_bytes(&h4), PACKET) == LEVELSPRUCE_ANSWER_DONE && stands(&h4, PACKET)
        && memcmp(lent_bytes(&h4), expected, PACKET) == 0;
}

static int write_refuses(uint32_t epoch, uint32_t sq, size_t length, uint8_t answer)
{
    struct lent h4;

    lend(&h4, NULL, 0);
    return levelspruce_packet_write_fixed(epoch, sq, lent_bytes(&h4), length) == answer && untouched(&h4);
}

/* Epoch and SQ, 0 in every other field, and nothing changes but the fields. */
static int reads(const uint8_t *bytes, uint32_t epoch, uint32_t sq)
{
    struct lent h4, fields;
    uint8_t expected[BYTES] = { 0 };

    expected[LEVELSPRUCE_FIELD_EPOCH] = (uint8_t)epoch;
    expected[LEVELSPRUCE_FIELD_WORD] = LEVELSPRUCE_WORD_FIXED;
    expected[LEVELSPRUCE_FIELD_SQ] = (uint8_t)sq;
    lend(&h4, bytes, PACKET);
    lend(&fields, NULL, 0);
    return levelspruce_packet_read_fixed(lent_bytes(&h4), PACKET, lent_bytes(&fields), BYTES) == LEVELSPRUCE_ANSWER_DONE && untouched(&h4)
        && stands(&fields, BYTES) && memcmp(lent_bytes(&fields), expected, BYTES) == 0;
}

static int read_refuses(const uint8_t *bytes, size_t h4_length, size_t fields_length, uint8_t answer)
{
    struct lent h4, fields;

    lend(&h4, bytes, PACKET);
    lend(&fields, NULL, 0);
    return levelspruce_packet_read_fixed(lent_bytes(&h4), h4_length, lent_bytes(&fields), fields_length) == answer && untouched(&h4) && untouched(&fields);
}

static const size_t wrong_packet_length[] = { 0, 1, 15, 17, 64 }, wrong_fields_length[] = { 0, 1, 6, 9, 11, 16, 64 };
static const uint32_t too_large[] = { 256, 257, 511, 65536, 65536 + 58, 0x80000000u, 0xFFFFFF00u, UINT32_MAX };

static void writing(void)
{
    uint8_t h4[PACKET];
    uint32_t epoch, sq;
    int held = 1, large = 1, length = 1;
    size_t i;

    check("SQ 5 in epoch 58 is written", writes(58, 5, example));
    for (epoch = 0; epoch < 256; epoch++)
        for (sq = 0; sq < 256; sq++) {
            by_hand(h4, epoch, sq);
            held = held && writes(epoch, sq, h4) && reads(h4, epoch, sq);
        }
    check("every epoch and SQ is written at its place, with zeros else, and reads back", held);
    for (i = 0; i < COUNT(too_large); i++)
        large = large && write_refuses(too_large[i], 5, PACKET, LEVELSPRUCE_ANSWER_FIELD) && write_refuses(58, too_large[i], PACKET, LEVELSPRUCE_ANSWER_FIELD)
             && write_refuses(too_large[i], too_large[i], PACKET, LEVELSPRUCE_ANSWER_FIELD);
    check("writing answers 8 for an epoch or SQ above 255", large);
    for (i = 0; i < COUNT(wrong_packet_length); i++)
        length = length && write_refuses(58, 5, wrong_packet_length[i], LEVELSPRUCE_ANSWER_LENGTH)
              && write_refuses(256, 256, wrong_packet_length[i], LEVELSPRUCE_ANSWER_LENGTH);
    check("writing answers 9 for a wrong length, before 8", length && levelspruce_packet_write_fixed(0, 256, NULL, 0) == LEVELSPRUCE_ANSWER_LENGTH);
}

static void reading(void)
{
    static const int unseen[] = { 0, 1, 2, 3, 4, 5, 11, 12, 13, 14, 15 };
    uint8_t h4[PACKET];
    uint32_t nibble, low;
    int others = 1, words = 1, lows = 1, length = 1;
    size_t i, j;

    check("it is read", reads(example, 58, 5));
    for (i = 0; i < COUNT(unseen); i++)
        for (nibble = 0; nibble < 16; nibble++) {
            memcpy(h4, example, PACKET);
            h4[unseen[i]] = (uint8_t)((h4[unseen[i]] & 15u) | nibble << 4);
            others = others && reads(h4, 58, 5);
        }
    memcpy(h4, example, PACKET);
    for (i = 0; i < COUNT(unseen); i++)
        h4[unseen[i]] |= 0xF0;
    check("other nibbles are not looked at, and it is written again without them", others && reads(h4, 58, 5) && writes(58, 5, example));
    for (nibble = 1; nibble < 16; nibble++) {
        memcpy(h4, example, PACKET);
        h4[WORD_PLACE] |= (uint8_t)(nibble << 4);
        words = words && read_refuses(h4, PACKET, BYTES, LEVELSPRUCE_ANSWER_UNASSIGNED);
    }
    check("reading answers 6 for every word but FIXED", words);
    for (low = 0; low < 16; low++) {
        for (i = 0; i < PACKET; i++)
            h4[i] = (uint8_t)((example[i] & 0xF0u) | low);
        lows = lows && reads(h4, 58, 5);
    }
    check("reading looks at the high nibbles only", lows);
    h4[WORD_PLACE] |= 0x50;
    for (i = 0; i < COUNT(wrong_packet_length); i++)
        length = length && read_refuses(h4, wrong_packet_length[i], BYTES, LEVELSPRUCE_ANSWER_LENGTH);
    for (j = 0; j < COUNT(wrong_fields_length); j++)
        length = length && read_refuses(example, PACKET, wrong_fields_length[j], LEVELSPRUCE_ANSWER_LENGTH)
              && read_refuses(h4, PACKET, wrong_fields_length[j], LEVELSPRUCE_ANSWER_LENGTH);
    check("reading answers 9 for a wrong length, before 6", length && levelspruce_packet_read_fixed(NULL, 0, NULL, 0) == LEVELSPRUCE_ANSWER_LENGTH);
}

static void undetected(void)
{
    uint8_t h4[PACKET], fields[BYTES];
    uint32_t epoch, sq, answers[16] = { 0 };
    int bit, one = 1;

    for (bit = 0; bit < 8; bit++) {
        memcpy(h4, example, PACKET);
        h4[bit < 4 ? SQ_LOW : SQ_HIGH] ^= (uint8_t)(0x10 << bit % 4);
        one = one && reads(h4, 58, 5u ^ 1u << bit);
    }
    check("nothing detects a changed bit of SQ", one);
    for (epoch = 0; epoch < 256; epoch++)
        for (sq = 0; sq < 256; sq++) {
            by_hand(h4, epoch, sq);
            answers[levelspruce_packet_read(h4, PACKET, fields, BYTES)]++;
        }
    check("to the reader of LCAS they are 5, and 7 once in 256", answers[7] == 256 && answers[5] == 255 * 256);
}

/* ---- starts */

enum { PORTS_MOST = LEVELSPRUCE_PORTS_MOST, P = 2, W = 64, FIRST = 250, TAGS = 4096 };

static uint8_t state[LEVELSPRUCE_RECEIVER_ROWS(PORTS_MOST)][LEVELSPRUCE_ROW_BYTES];
static uint8_t store[LEVELSPRUCE_STORE_BYTES(PORTS_MOST, P, W)];
static uint8_t out[LEVELSPRUCE_OUTPUT_BYTES(PORTS_MOST, P)];

static uint32_t count; /* ports of the group */

static uint8_t starts_with(uint32_t kind, uint32_t ports, uint32_t payload, uint32_t window, size_t store_bytes, size_t rows)
{
    return levelspruce_receiver_start_as(kind, ports, payload, window, store_bytes, NULL, 0, NULL, 0, state, rows);
}

static uint8_t starts(uint32_t kind, uint32_t ports)
{
    count = ports;
    return starts_with(kind, ports, P, W, LEVELSPRUCE_STORE_BYTES(ports, P, W), LEVELSPRUCE_RECEIVER_ROWS(ports));
}

static int shown(uint32_t port, int which)
{
    uint8_t ports[PORTS_MOST][LEVELSPRUCE_PORT_BYTES];

    return levelspruce_receiver_ports((const uint8_t(*)[LEVELSPRUCE_ROW_BYTES])state, LEVELSPRUCE_RECEIVER_ROWS(count), ports, count) == LEVELSPRUCE_ANSWER_DONE
             ? ports[port][which]
             : -1;
}

/* Whether MST is 00 and RS-Ack 0 in every epoch. */
static int replies_nothing(void)
{
    uint32_t epoch;
    int held = 1;

    for (epoch = 0; epoch < 256; epoch++) {
        uint8_t reply[LEVELSPRUCE_REPLY_BYTES] = { 0xA5, 0xA5 };

        held = held
            && levelspruce_receiver_reply((const uint8_t(*)[LEVELSPRUCE_ROW_BYTES])state, LEVELSPRUCE_RECEIVER_ROWS(count), (uint8_t)epoch, reply, sizeof reply)
                   == LEVELSPRUCE_ANSWER_DONE
            && reply[LEVELSPRUCE_REPLY_MST] == 0 && reply[LEVELSPRUCE_REPLY_RS_ACK] == 0;
    }
    return held;
}

static void starting(void)
{
    static const uint32_t others[] = { 3, 4, 255, 256, 258, 65538, 0x80000002u, UINT32_MAX };
    static const uint32_t times[] = { 0, 5000, 5001 };
    const size_t bytes = LEVELSPRUCE_STORE_BYTES(2, P, W), rows = LEVELSPRUCE_RECEIVER_ROWS(2);
    uint8_t nothing[P] = { 0 };
    int held = 1;
    size_t i;

    check("the kinds 0 and 2 start",
          starts(LEVELSPRUCE_KIND_H4, 3) == 0 && starts(LEVELSPRUCE_KIND_FIXED, 3) == 0 && LEVELSPRUCE_KIND_H4 == 0 && LEVELSPRUCE_KIND_FIXED == 2);
    for (i = 0; i < COUNT(others); i++) {
        held = held && starts(LEVELSPRUCE_KIND_FIXED, 2) == 0 && starts(others[i], 2) == 4
            && levelspruce_receiver_frame(state, rows, 0, 0, 0, nothing, P, store, bytes) == 1
            && levelspruce_receiver_ports((const uint8_t(*)[LEVELSPRUCE_ROW_BYTES])state, rows, NULL, 0) == 0;
        held = held && starts_with(others[i], 2, P, W, bytes + 1, rows + 1) == 4;
    }
    check("any other kind is 4, before 9, and leaves an empty group", held);
    check("a fixed group is answered 4 and 9 as any other",
          starts(2, 0) == 4 && starts(2, 65) == 4 && starts_with(2, 2, 0, W, bytes, rows) == 4 && starts_with(2, 2, 2341, W, bytes, rows) == 4
              && starts_with(2, 2, P, 15, bytes, rows) == 4 && starts_with(2, 2, P, 2049, bytes, rows) == 4 && starts_with(2, 2, P, W, bytes - 1, rows) == 9
              && starts_with(2, 2, P, W, bytes, rows + 1) == 9 && levelspruce_receiver_start_as(2, 2, P, W, bytes, times, 2, times, 2, state, rows) == 0
              && levelspruce_receiver_start_as(2, 2, P, W, bytes, times + 1, 2, NULL, 0, state, rows) == 4
              && levelspruce_receiver_start_as(2, 2, P, W, bytes, times, 1, NULL, 0, state, rows) == 9);
    check("after its start all ports are IDLE with no word, and there is no reply",
          starts(2, 2) == 0 && shown(1, LEVELSPRUCE_PORT_STATE) == LEVELSPRUCE_PORT_IDLE && shown(1, LEVELSPRUCE_PORT_NUMBER) == 255
              && shown(1, LEVELSPRUCE_PORT_WORD) == 255 && replies_nothing());
}

/* ---- groups. Frame n of the stream is sent at time n, and is frame n mod 16 of the epoch FIRST + n div 16. */

enum { TIMES = 480, LAST_EPOCH = TIMES / EPOCH };

/* What is wrong with a port's packets of some epochs, or with its frames in these. */
enum wrong { NOTHING, WORD, NUMBER, MFI2, LCAS, DARK };

struct fault {
    enum wrong what;
    uint32_t port, from, to; /* epochs, both included */
    uint32_t value;          /* the word, number or MFI2 in place of the right one; an LCAS word */
};

static uint32_t number[PORTS_MOST], delay[PORTS_MOST];

/* By epoch, counted from 0: the mark of its report, and whether bytes and X were right. */
static uint8_t marks[LAST_EPOCH + 1];
static int right[LAST_EPOCH + 1];
static uint32_t first_reported, reported;
static int silent; /* whether there never was a reply */

static uint8_t client(uint32_t time, uint32_t i)
{
    return (uint8_t)(time * 37 + time / 256 * 11 + i * 101 + 5);
}

static int befalls(const struct fault *f, uint32_t port, uint32_t epoch)
{
    return f->what != NOTHING && f->port == port && f->from <= epoch && epoch <= f->to;
}

static uint8_t h4_of(const struct fault *faults, size_t n, uint32_t port, uint32_t time)
{
    uint8_t h4[PACKET];
    uint32_t epoch = time / EPOCH, mfi2 = (FIRST + epoch) % 256, sq = number[port], word = 0;
    int lcas = 0;
    size_t i;

    for (i = 0; i < n; i++)
        if (befalls(&faults[i], port, epoch)) {
            if (faults[i].what == NUMBER)
                sq = faults[i].value;
            if (faults[i].what == MFI2)
                mfi2 = (mfi2 + faults[i].value) % 256;
            if (faults[i].what == WORD || faults[i].what == LCAS)
                word = faults[i].value;
            lcas = lcas || faults[i].what == LCAS;
        }
    if ((lcas ? levelspruce_packet_write(mfi2, word, 0, 0xFF, 0, sq, 0, h4, PACKET) : levelspruce_packet_write_fixed(mfi2, sq, h4, PACKET))
        != LEVELSPRUCE_ANSWER_DONE)
        check("a packet is written", 0);
    if (!lcas)
        h4[WORD_PLACE] |= (uint8_t)(word << 4);
    return h4[time % EPOCH];
}

static int is_dark(const struct fault *faults, size_t n, uint32_t port, uint32_t epoch)
{
    size_t i;

    for (i = 0; i < n; i++)
        if (faults[i].what == DARK && befalls(&faults[i], port, epoch))
            return 1;
    return 0;
}

/* The frame of a port that comes at this time. */
static uint8_t hand(const struct fault *faults, size_t n, uint32_t port, uint32_t time)
{
    uint8_t payload[P] = { 0 };
    int dark;
    uint32_t j, sent;

    if (time < delay[port])
        return LEVELSPRUCE_ANSWER_DONE;
    sent = time - delay[port];
    dark = is_dark(faults, n, port, sent / EPOCH);
    for (j = 0; j < P; j++)
        payload[j] = client(sent, j * count + number[port]);
    return levelspruce_receiver_frame(state, LEVELSPRUCE_RECEIVER_ROWS(count), port, (uint32_t)dark, h4_of(faults, n, port, sent), payload, P, store,
                                      LEVELSPRUCE_STORE_BYTES(count, P, W));
}

static int are_clients(uint32_t epoch)
{
    uint32_t k, i;

    for (k = 0; k < EPOCH; k++)
        for (i = 0; i < count * P; i++)
            if (out[k * count * P + i] != client(epoch * EPOCH + k, i))
                return 0;
    return 1;
}

/* Fetches what is due. */
static void fetch(void)
{
    uint8_t report[LEVELSPRUCE_REPORT_BYTES];

    while (levelspruce_receiver_fetch(state, LEVELSPRUCE_RECEIVER_ROWS(count), store, LEVELSPRUCE_STORE_BYTES(count, P, W), out,
                                      LEVELSPRUCE_OUTPUT_BYTES(count, P), report, sizeof report)
               == LEVELSPRUCE_ANSWER_DONE
           && report[LEVELSPRUCE_REPORT_MARK] != LEVELSPRUCE_MARK_NONE) {
        uint32_t epoch = (report[LEVELSPRUCE_REPORT_EPOCH] + 256u - FIRST) % 256, x = report[LEVELSPRUCE_REPORT_X];
        uint32_t bytes = (uint32_t)report[LEVELSPRUCE_REPORT_COUNT + 2] << 8 | report[LEVELSPRUCE_REPORT_COUNT + 3];

        if (epoch > LAST_EPOCH)
            return;
        if (reported == 0)
            first_reported = epoch;
        marks[epoch] = report[LEVELSPRUCE_REPORT_MARK];
        right[epoch] = marks[epoch] == SURE ? x == count && bytes == EPOCH * count * P && are_clients(epoch) : x == 0 && bytes == 0;
        right[epoch] = right[epoch] && (report[LEVELSPRUCE_REPORT_CAUSE] == LEVELSPRUCE_CAUSE_NONE) == (marks[epoch] == SURE)
                    && report[LEVELSPRUCE_REPORT_CAUSE] != LEVELSPRUCE_CAUSE_GID && report[LEVELSPRUCE_REPORT_CAUSE] != LEVELSPRUCE_CAUSE_EOS;
        reported++;
        silent = silent && (reported % 8 != 1 || replies_nothing());
    }
}

/* Runs a receiver of a kind with so many ports, on a fixed group with the numbers and delays that are set. */
static void run_as(uint32_t kind, uint32_t ports, const struct fault *faults, size_t n)
{
    uint32_t time, port;

    memset(marks, 0, sizeof marks);
    reported = 0;
    silent = starts(kind, ports) == 0;
    for (time = 0; time < TIMES; time++) {
        for (port = 0; port < ports; port++)
            (void)!hand(faults, n, port, time);
        fetch();
    }
    silent = silent && replies_nothing();
}

static void run(uint32_t ports, const struct fault *faults, size_t n)
{
    run_as(LEVELSPRUCE_KIND_FIXED, ports, faults, n);
}

/* Whether the epochs from one to before another all have this mark, with all that goes with it. */
static int all_are(uint32_t from, uint32_t to, int mark)
{
    for (; from < to; from++)
        if (marks[from] != mark || !right[from])
            return 0;
    return 1;
}

/* Every epoch from the first reported on has come, and all are of this mark. */
static int run_is(int mark)
{
    uint32_t last = TIMES / EPOCH - W / EPOCH;

    return reported > 10 && first_reported + reported >= last && all_are(first_reported, last, mark) && silent;
}

/* Unequal delays, within the window's limit. */
static void spread_delays(void)
{
    uint32_t port;

    for (port = 0; port < PORTS_MOST; port++)
        delay[port] = port * 19 % (W - LEVELSPRUCE_WINDOW_LEAST + 1);
}

static void set_numbers(uint32_t a, uint32_t b, uint32_t c)
{
    number[0] = a;
    number[1] = b;
    number[2] = c;
}

static int is_each_once(uint32_t a, uint32_t b, uint32_t c)
{
    return a != b && b != c && a != c && a < 3 && b < 3 && c < 3;
}

static void orders(void)
{
    static const uint32_t tried[] = { 0, 1, 2, 3, 255 }, sizes[] = { 1, 2, 5, 8, 17, 63, 64 };
    uint32_t a, b, c, port;
    int held = 1, all = 1, named = 1;
    size_t i;

    spread_delays();
    for (a = 0; a < COUNT(tried); a++)
        for (b = 0; b < COUNT(tried); b++)
            for (c = 0; c < COUNT(tried); c++) {
                set_numbers(tried[a], tried[b], tried[c]);
                run(3, NULL, 0);
                held = held && run_is(is_each_once(tried[a], tried[b], tried[c]) ? SURE : HELD);
            }
    check("three ports: 0, 1 and 2 in any order are sure with the client's bytes, all other numbers are held", held);
    for (i = 0; i < COUNT(sizes); i++) {
        for (port = 0; port < sizes[i]; port++)
            number[port] = (port * 25 + 3) % sizes[i]; /* 25 has no divisor in common with any size but 5 */
        if (sizes[i] == 5)
            for (port = 0; port < 5; port++)
                number[port] = (port * 2 + 1) % 5;
        run(sizes[i], NULL, 0);
        all = all && run_is(SURE);
        for (port = 0; port < sizes[i]; port++)
            named = named && shown(port, LEVELSPRUCE_PORT_STATE) == LEVELSPRUCE_PORT_OK && shown(port, LEVELSPRUCE_PORT_NUMBER) == (int)number[port]
                 && shown(port, LEVELSPRUCE_PORT_WORD) == LEVELSPRUCE_WORD_FIXED;
    }
    check("1 to 64 ports over unequal delays are sure from the first report on", all);
    check("each port is shown OK with its number and the word 0", named);
    number[0] = 1;
    run(1, NULL, 0);
    check("one port with another number than 0 is held", run_is(HELD));
}

/* From the fault on held, and sure before and after. */
static int holds_alone(const struct fault *fault)
{
    uint32_t last = TIMES / EPOCH - W / EPOCH;

    run(3, fault, 1);
    return silent && all_are(first_reported, fault->from + 1, SURE) && all_are(fault->from + 1, fault->to + 2, HELD) && all_are(fault->to + 2, last, SURE);
}

static void damage(void)
{
    struct fault fault = { WORD, 1, 12, 12, 1 };
    struct fault two[2] = { { NUMBER, 0, 12, 12, 0 }, { NUMBER, 1, 12, 12, 2 } };
    uint32_t value, port;
    int words = 1, numbers = 1, mfi2 = 1;

    set_numbers(2, 0, 1);
    for (port = 0; port < 3; port++) {
        fault.port = port;
        fault.what = WORD;
        for (value = 1; value < 16; value++) {
            fault.value = value;
            words = words && holds_alone(&fault);
        }
        fault.what = NUMBER;
        for (value = 0; value < 256; value++) {
            fault.value = value;
            if (value != number[port])
                numbers = numbers && holds_alone(&fault);
        }
        fault.what = MFI2;
        for (value = 1; value < 256; value += 9) {
            fault.value = value;
            mfi2 = mfi2 && holds_alone(&fault);
        }
    }
    check("a foreign word in one packet holds the epoch that it rules, and no other", words);
    check("so does another number", numbers);
    check("so does another MFI2", mfi2);
    run(3, two, 2);
    check("two packets with each other's number are sure and wrong: nothing detects it",
          marks[13] == SURE && !right[13] && all_are(first_reported, 13, SURE) && all_are(14, 20, SURE));
}

static void losses(void)
{
    struct fault dark = { DARK, 0, 12, 16, 0 }, odd = { MFI2, 1, 12, 13, 3 };
    uint32_t port;
    int held = 1, failed = 1;

    set_numbers(2, 0, 1);
    /* who fetches at once, as here, does not get the slowest port back */
    memset(delay, 0, sizeof delay);
    for (port = 0; port < 3; port++) {
        dark.port = port;
        dark.to = 16;
        run(3, &dark, 1);
        /* back in step within 47 frames, joined at the next epoch, and sure from the one after it on */
        held = held && silent && all_are(first_reported, 12, SURE) && all_are(12, 18, HELD) && all_are(23, 26, SURE);
        dark.to = LAST_EPOCH;
        run(3, &dark, 1);
        held = held && silent && all_are(first_reported, 12, SURE) && all_are(12, 26, HELD);
        failed = failed && shown(port, LEVELSPRUCE_PORT_STATE) == LEVELSPRUCE_PORT_FAIL && shown(port, LEVELSPRUCE_PORT_FAILED) == 1
              && shown((port + 1) % 3, LEVELSPRUCE_PORT_STATE) == LEVELSPRUCE_PORT_OK;
    }
    check("one dark port holds every report, whatever number it has, and none is doubtful", held);
    check("it alone is FAIL", failed);
    run(3, &odd, 1);
    check("two packets in a row with another MFI2 cost the port its step, and it comes back", marks[13] == HELD && marks[15] == HELD && all_are(22, 26, SURE));
    spread_delays();
}

/* What the manual says of such a neighbour where nobody knows it yet. */
static void to_lcas(void)
{
    uint32_t port;
    int readable = 1;

    set_numbers(2, 0, 1);
    run_as(LEVELSPRUCE_KIND_H4, 3, NULL, 0);
    for (port = 0; port < 3; port++)
        readable = readable && shown(port, LEVELSPRUCE_PORT_STEP) == 1 && shown(port, LEVELSPRUCE_PORT_READABLE) == 1
                && shown(port, LEVELSPRUCE_PORT_WORD) == 255;
    check("a receiver with LCAS has every port of a fixed group in step and readable, and holds every epoch",
          readable && reported > 10 && all_are(first_reported, TIMES / EPOCH - W / EPOCH, HELD));
}

static void streams_of_lcas(void)
{
    struct fault norm = { LCAS, 0, 0, LAST_EPOCH, LEVELSPRUCE_WORD_NORM }, both[2];
    uint32_t port;
    int unread = 1;

    set_numbers(0, 1, 2);
    both[0] = norm;
    both[1] = norm;
    both[1].port = 1;
    both[1].value = LEVELSPRUCE_WORD_EOS;
    run(2, both, 2);
    for (port = 0; port < 2; port++)
        unread = unread && shown(port, LEVELSPRUCE_PORT_WORD) == 255 && shown(port, LEVELSPRUCE_PORT_STATE) == LEVELSPRUCE_PORT_IDLE
              && shown(port, LEVELSPRUCE_PORT_READABLE) == 1;
    check("an LCAS stream is held in every epoch and never read", run_is(HELD) && unread);
    run(2, &norm, 1);
    check("one LCAS port among FIXED ones holds every report",
          run_is(HELD) && shown(0, LEVELSPRUCE_PORT_WORD) == 255 && shown(1, LEVELSPRUCE_PORT_WORD) == LEVELSPRUCE_WORD_FIXED);
}

/* A hold-off keeps the dark port OK for as many reports; the marks are the same. */
static void times(void)
{
    const uint32_t hold_off[3] = { 3, 3, 3 };
    struct fault dark = { DARK, 1, 12, LAST_EPOCH, 0 };
    uint32_t time, port, ok = 0;

    set_numbers(1, 2, 0);
    memset(marks, 0, sizeof marks);
    reported = 0;
    silent = starts(LEVELSPRUCE_KIND_FIXED, 3) == 0
          && levelspruce_receiver_start_as(LEVELSPRUCE_KIND_FIXED, 3, P, W, LEVELSPRUCE_STORE_BYTES(3, P, W), hold_off, 3, NULL, 0, state,
                                           LEVELSPRUCE_RECEIVER_ROWS(3))
                 == 0;
    for (time = 0; time < TIMES; time++) {
        for (port = 0; port < 3; port++) {
            uint32_t before = reported;

            (void)!hand(&dark, 1, port, time);
            fetch();
            ok += reported > before && shown(1, LEVELSPRUCE_PORT_WAITING) == LEVELSPRUCE_WAITING_HOLD_OFF;
        }
    }
    check("a fixed group has hold-offs, and they change no mark",
          ok == 3 && shown(1, LEVELSPRUCE_PORT_STATE) == LEVELSPRUCE_PORT_FAIL && silent && all_are(first_reported, 12, SURE) && all_are(12, 26, HELD));
}

int main(void)
{
    writing();
    reading();
    undetected();
    starting();
    orders();
    damage();
    losses();
    streams_of_lcas();
    to_lcas();
    times();
    return tally();
}
