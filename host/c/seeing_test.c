/*
 * Tests of what the receiver says of itself, over the archive: seen, cause, heard, behind, anew and both settings. Every answer, that
 * a refusal changes nothing, and a link of two slots over unequal delays with figures worked out by hand: what is seen before and after
 * a report, a damaged packet, one of another number, who is heard, how far a port lies behind, and a beginning anew. And of each cause
 * an epoch of two ports, with the port to blame.
 */
#include <levelspruce.h>

#include <string.h>

#include "check.h"

enum { LENT_MOST = 2048 };
#include "lent.h"

enum { PORTS = 2, P = 3, W = 32, EPOCH = 16, TAGS = 4096 };
enum { ROWS = PORTS * 5 + 1, STORE = PORTS * W * (P + 1), OUT = PORTS * EPOCH * P };

static uint8_t rows[ROWS][LEVELSPRUCE_ROW_BYTES], store[STORE], out[OUT], record[LEVELSPRUCE_REPORT_BYTES];
static struct lent lent;

static const uint8_t (*state(void))[LEVELSPRUCE_ROW_BYTES]
{
    return (const uint8_t(*)[LEVELSPRUCE_ROW_BYTES])rows;
}

/* What the packets of each epoch carry: MST and RS-Ack by the epoch, the second port's words and numbers turned round. */
static uint8_t mst_of(uint32_t epoch)
{
    return (uint8_t)(epoch * 29 + 3);
}

static uint8_t ack_of(uint32_t epoch)
{
    return (uint8_t)(epoch / 3 % 2);
}

static uint32_t epoch_of(uint32_t tag)
{
    return (tag + 8) % TAGS / EPOCH;
}

static uint8_t h4_of(uint32_t port, uint32_t tag)
{
    uint8_t h4[LEVELSPRUCE_PACKET_BYTES];
    uint32_t epoch = epoch_of(tag);

    if (levelspruce_packet_write(epoch, port == 0 ? LEVELSPRUCE_WORD_EOS : LEVELSPRUCE_WORD_NORM, 1, mst_of(epoch), ack_of(epoch), 1 - port, 0, h4, sizeof h4)
        != 0)
        check("a packet is written", 0);
    return h4[(tag + 8) % EPOCH];
}

/* A port's frame with a tag, its H4 changed by these bits; the answer. */
static uint8_t hand(uint32_t port, uint32_t tag, uint8_t bits)
{
    const uint8_t payload[P] = { (uint8_t)tag, (uint8_t)port, 7 };

    return levelspruce_receiver_frame(rows, ROWS, port, 0, (uint8_t)(h4_of(port, tag % TAGS) ^ bits), payload, P, store, sizeof store);
}

static int seen_is(uint32_t port, const uint8_t *expected)
{
    uint8_t seen[PORTS][LEVELSPRUCE_SEEN_BYTES];

    return levelspruce_receiver_seen(state(), ROWS, seen, PORTS) == 0 && memcmp(seen[port], expected, sizeof seen[port]) == 0;
}

static int cause_is(uint8_t clause, uint8_t port)
{
    uint8_t cause[LEVELSPRUCE_CAUSE_BYTES];

    return levelspruce_receiver_cause(state(), ROWS, cause, sizeof cause) == 0 && cause[LEVELSPRUCE_CAUSE_CLAUSE] == clause
        && cause[LEVELSPRUCE_CAUSE_PORT] == port;
}

static int heard_is(uint8_t said, uint32_t epoch, uint8_t mst, uint8_t ack)
{
    const uint8_t expected[] = { said, (uint8_t)epoch, mst, ack };
    uint8_t heard[LEVELSPRUCE_HEARD_BYTES];

    return levelspruce_receiver_heard(state(), ROWS, heard, sizeof heard) == 0 && memcmp(heard, expected, sizeof heard) == 0;
}

static int behind_is(uint32_t first, uint32_t second)
{
    uint32_t behind[PORTS];

    return levelspruce_receiver_behind(state(), ROWS, behind, PORTS) == 0 && behind[0] == first && behind[1] == second;
}

static int fetched(int mark, uint32_t epoch)
{
    return levelspruce_receiver_fetch(rows, ROWS, store, sizeof store, out, sizeof out, record, sizeof record) == 0 && record[LEVELSPRUCE_REPORT_MARK] == mark
        && record[LEVELSPRUCE_REPORT_EPOCH] == epoch;
}

static int started(void)
{
    return levelspruce_receiver_start(PORTS, P, W, sizeof store, rows, ROWS) == 0;
}

/* Both ports from their first tag until before these; port 1 has port 0's frames that many later, and 'bits' damage one frame. */
struct damage {
    uint32_t port, tag;
    uint8_t bits;
};

static int runs(uint32_t first, uint32_t last, uint32_t later, const struct damage *damage, size_t damages)
{
    uint32_t t;
    size_t i;
    int held = 1;

    for (t = first; t < last; t++) {
        uint32_t port;

        for (port = 0; port < PORTS; port++) {
            uint32_t tag = port == 0 ? t : t - later;
            uint8_t bits = 0, answer;

            if (port == 1 && t < later + 16)
                continue;
            for (i = 0; i < damages; i++)
                if (damage[i].port == port && damage[i].tag == tag)
                    bits = damage[i].bits;
            answer = hand(port, tag, bits);
            held = held && (answer == 0 || answer == 12);
        }
    }
    return held;
}

static void refusals(void)
{
    static const size_t off[] = { 0, 1, ROWS - 1, ROWS + 1 };
    uint32_t numbers[PORTS + 1] = { 5, 6, 7 };
    uint8_t seen[PORTS + 1][LEVELSPRUCE_SEEN_BYTES], bytes[8], sender[LEVELSPRUCE_SENDER_BYTES];
    size_t i;
    int held = started();

    lend(&lent, &rows[0][0], sizeof rows);
    memset(seen, 0xA5, sizeof seen);
    memset(bytes, 0xA5, sizeof bytes);
    for (i = 0; i < COUNT(off); i++) {
        const uint8_t(*s)[LEVELSPRUCE_ROW_BYTES] = off[i] ? (const uint8_t(*)[LEVELSPRUCE_ROW_BYTES])lent_bytes(&lent) : NULL;
        size_t n = off[i];
        int empty = n == 0;

        /* no rows are an empty group: it has no ports to read, and its other readings are zeros */
        held = held && levelspruce_receiver_seen(s, n, seen, PORTS) == 9 && levelspruce_receiver_behind(s, n, numbers, PORTS) == 9;
        held = held && (empty || levelspruce_receiver_heard(s, n, bytes, 4) == 9) && (empty || levelspruce_receiver_settings(s, n, numbers, 4) == 9);
        held = held && (empty || levelspruce_receiver_cause(s, n, bytes, 2) == 9);
        held = held && levelspruce_receiver_anew((uint8_t(*)[LEVELSPRUCE_ROW_BYTES])(empty ? NULL : lent_bytes(&lent)), n, store, sizeof store) == 9;
    }
    held = held && levelspruce_receiver_seen(state(), ROWS, seen, PORTS - 1) == 9 && levelspruce_receiver_seen(state(), ROWS, seen, PORTS + 1) == 9;
    held = held && levelspruce_receiver_cause(state(), ROWS, bytes, 1) == 9 && levelspruce_receiver_cause(state(), ROWS, bytes, 3) == 9
        && levelspruce_receiver_cause(state(), ROWS, NULL, 0) == 9;
    held = held && levelspruce_receiver_heard(state(), ROWS, bytes, 3) == 9 && levelspruce_receiver_heard(state(), ROWS, bytes, 5) == 9
        && levelspruce_receiver_heard(state(), ROWS, NULL, 0) == 9;
    held = held && levelspruce_receiver_behind(state(), ROWS, numbers, PORTS - 1) == 9 && levelspruce_receiver_behind(state(), ROWS, numbers, PORTS + 1) == 9;
    held = held && levelspruce_receiver_settings(state(), ROWS, numbers, 3) == 9 && levelspruce_receiver_settings(state(), ROWS, numbers, 5) == 9;
    held = held && levelspruce_receiver_anew(rows, ROWS, store, sizeof store - 1) == 9 && levelspruce_receiver_anew(rows, ROWS, NULL, 0) == 9;
    check("a wrong length of rows, store or buffer is 9", held);
    for (i = 0; i < sizeof bytes; i++)
        held = held && bytes[i] == 0xA5 && seen[0][i] == 0xA5 && seen[PORTS][i] == 0xA5;
    check("and 9 changes no byte",
          held && numbers[0] == 5 && numbers[1] == 6 && numbers[2] == 7 && untouched(&lent) && memcmp(rows, lent_bytes(&lent), sizeof rows) == 0);
    held = levelspruce_sender_start(3, 17, sender, sizeof sender) == 0 && levelspruce_sender_settings(sender, sizeof sender - 1, bytes, 5) == 9
        && levelspruce_sender_settings(sender, sizeof sender, bytes, 4) == 9 && levelspruce_sender_settings(sender, sizeof sender, bytes, 6) == 9
        && bytes[0] == 0xA5;
    check("so it is of a sender's settings", held);
}

static void empty_group(void)
{
    uint32_t numbers[4] = { 1, 2, 3, 4 };
    uint8_t bytes[4] = { 1, 2, 3, 4 };
    int held = levelspruce_receiver_seen(NULL, 0, NULL, 0) == 0 && levelspruce_receiver_behind(NULL, 0, NULL, 0) == 0
            && levelspruce_receiver_anew(NULL, 0, NULL, 0) == 0;

    held = held && levelspruce_receiver_heard(NULL, 0, bytes, 4) == 0 && bytes[0] == 0 && bytes[1] == 0 && bytes[2] == 0 && bytes[3] == 0;
    held = held && levelspruce_receiver_cause(NULL, 0, bytes, 2) == 0 && bytes[0] == LEVELSPRUCE_CAUSE_NONE && bytes[1] == LEVELSPRUCE_CAUSE_NO_PORT;
    held = held && levelspruce_receiver_settings(NULL, 0, numbers, 4) == 0 && numbers[0] == 0 && numbers[1] == 0 && numbers[2] == 0 && numbers[3] == 0;
    check("an empty group has no ports to read and no cause, nothing is heard, and its settings are zeros", held);
}

/* Tags from 0 on; port 1's frames come five frame times later, the greatest spread of W 32 is 16. Both ports start at MFI1 0. Port 0 is in
 * step at frame time 31 with tag 31, port 1 at 5 + 16 + 31 = 52 with tag 47, when port 0 has tag 52: it lies 5 behind, and receiving begins.
 * Tag 52 is of epoch 3, which starts at 40: epoch 4, from 56 on, is gathered, when port 1 has brought tag 71, at 76. Epoch 5, tags 72 to 87,
 * is the first reported, at 92. */
static void a_link(void)
{
    static const uint8_t fresh[] = { 0, 0, 0, 0, 0, 0, 0, 0, 0, 0 };
    uint8_t first[] = { 1, 0, 0, 4, LEVELSPRUCE_WORD_EOS, 1, 1, 0, 0, 0 }, second[] = { 1, 0, 0, 4, LEVELSPRUCE_WORD_NORM, 0, 1, 0, 0, 0 };
    int held = started() && seen_is(0, fresh) && seen_is(1, fresh) && heard_is(0, 0, 0, 0) && behind_is(LEVELSPRUCE_BEHIND_NONE, LEVELSPRUCE_BEHIND_NONE);

    check("after a start nothing is seen, nothing is heard, and no port is in step", held);
    held = runs(0, 32, 5, NULL, 0) && behind_is(0, LEVELSPRUCE_BEHIND_NONE);
    check("a port in step alone lies 0 behind", held);
    held = runs(32, 53, 5, NULL, 0) && behind_is(0, 5) && heard_is(0, 0, 0, 0);
    check("the port of the longer way lies as many frames behind as its way is longer", held);
    held = runs(53, 77, 5, NULL, 0) && behind_is(0, 5);
    first[LEVELSPRUCE_SEEN_MST] = second[LEVELSPRUCE_SEEN_MST] = mst_of(4);
    first[LEVELSPRUCE_SEEN_RS_ACK] = second[LEVELSPRUCE_SEEN_RS_ACK] = ack_of(4);
    check("the gathered epoch's packets are seen, and heard", held && seen_is(0, first) && seen_is(1, second) && heard_is(1, 4, mst_of(4), ack_of(4)));
    held = runs(77, 88, 5, NULL, 0);
    first[LEVELSPRUCE_SEEN_HERE] = 1;
    check("a port whose frames of the oldest epoch are here shows it, and the other does not", held && seen_is(0, first) && seen_is(1, second));
    held = runs(88, 93, 5, NULL, 0);
    second[LEVELSPRUCE_SEEN_HERE] = 1;
    check("before the fetch what the report will go by is seen", held && seen_is(0, first) && seen_is(1, second) && heard_is(1, 4, mst_of(4), ack_of(4)));
    held = fetched(LEVELSPRUCE_MARK_SURE, 5);
    first[LEVELSPRUCE_SEEN_EPOCH] = second[LEVELSPRUCE_SEEN_EPOCH] = 5;
    first[LEVELSPRUCE_SEEN_MST] = second[LEVELSPRUCE_SEEN_MST] = mst_of(5);
    first[LEVELSPRUCE_SEEN_RS_ACK] = second[LEVELSPRUCE_SEEN_RS_ACK] = ack_of(5);
    first[LEVELSPRUCE_SEEN_HERE] = second[LEVELSPRUCE_SEEN_HERE] = 0;
    check("after it the packets of the epoch reported are seen", held && seen_is(0, first) && seen_is(1, second));
    check("and that epoch is heard", heard_is(1, 5, mst_of(5), ack_of(5)));
    check("a fetch with none due changes nothing of it", fetched(LEVELSPRUCE_MARK_NONE, 0) && heard_is(1, 5, mst_of(5), ack_of(5)));
}

/* Epoch 6 is tags 88 to 103. Bit 0x10 is the lowest of the nibble in a frame's high half. */
static void damaged(void)
{
    static const struct damage one[] = { { 0, 95, 0x10 } }, both[] = { { 0, 110, 0x10 }, { 1, 107, 0x10 } };
    static const uint8_t refused[] = { 1, LEVELSPRUCE_ANSWER_CRC, 0, 0, 0, 0, 0, 0, 0, 0 };
    uint8_t good[] = { 1, 0, 0, 6, LEVELSPRUCE_WORD_NORM, 0, 1, 0, 0, 0 };
    int held = runs(93, 109, 5, one, COUNT(one)) && fetched(LEVELSPRUCE_MARK_SURE, 6);

    good[LEVELSPRUCE_SEEN_MST] = mst_of(6);
    good[LEVELSPRUCE_SEEN_RS_ACK] = ack_of(6);
    check("a damaged packet is seen with 5 and nothing else of it", held && seen_is(0, refused) && seen_is(1, good));
    check("and the lowest port whose packet is good is heard", heard_is(1, 6, mst_of(6), ack_of(6)));
    held = runs(109, 125, 5, both, COUNT(both)) && cause_is(LEVELSPRUCE_CAUSE_REFUSED, 0) && fetched(LEVELSPRUCE_MARK_HELD, 7);
    check("where every packet is damaged nothing is heard", held && seen_is(0, refused) && seen_is(1, refused) && heard_is(0, 0, 0, 0));
    held = runs(125, 141, 5, NULL, 0) && fetched(LEVELSPRUCE_MARK_HELD, 8) && heard_is(1, 8, mst_of(8), ack_of(8));
    check("and after the next report that one's epoch is heard, held as it is", held);
    held = runs(141, 157, 5, NULL, 0) && fetched(LEVELSPRUCE_MARK_SURE, 9) && heard_is(1, 9, mst_of(9), ack_of(9));
    check("the one after it is sure", held);
}

/* What both ports' packets carry in every epoch, a bit of port 1's frame with tag 50 changed, or that port flagged from tag 60 on; and of
 * epochs 4 and 5, whose reports come when tags 71 and 87 are here, cause and port. Both ports bring tags from 0 on: in step at 31, of epoch 2,
 * so that epoch 3, tags 40 to 55, is gathered, and epoch 4, tags 56 to 71, is the first reported. */
struct blame {
    const char *what;
    uint8_t word[PORTS], number[PORTS], gid[PORTS], damaged, flagged, cause[2], port[2];
};

static uint8_t blame_frame(const struct blame *b, uint32_t port, uint32_t tag)
{
    const uint8_t payload[P] = { 1, 2, 3 };
    uint8_t h4[LEVELSPRUCE_PACKET_BYTES];

    if (levelspruce_packet_write(epoch_of(tag), b->word[port], b->gid[port], 0, 0, b->number[port], 0, h4, sizeof h4) != 0)
        return 255;
    return levelspruce_receiver_frame(rows, ROWS, port, port == 1 && b->flagged && tag >= 60,
                                      (uint8_t)(h4[(tag + 8) % EPOCH] ^ (port == 1 && tag == 50 ? b->damaged : 0)), payload, P, store, sizeof store);
}

static uint8_t mark_by(uint8_t cause)
{
    return cause == LEVELSPRUCE_CAUSE_NONE ? LEVELSPRUCE_MARK_SURE : cause < LEVELSPRUCE_CAUSE_UNSEEN ? LEVELSPRUCE_MARK_HELD : LEVELSPRUCE_MARK_DOUBTFUL;
}

static int blame_holds(const struct blame *b)
{
    uint32_t tag, port, report = 0;
    int held = started();

    for (tag = 0; tag < 88; tag++) {
        for (port = 0; port < PORTS; port++) {
            uint8_t answer = blame_frame(b, port, tag);

            held = held && (answer == 0 || answer == 10 || answer == 12);
        }
        if (tag != 71 && tag != 87)
            continue;
        lend(&lent, &rows[0][0], sizeof rows);
        held = held && cause_is(b->cause[report], b->port[report]) && memcmp(rows, lent_bytes(&lent), sizeof rows) == 0
            && fetched(mark_by(b->cause[report]), 4 + report) && record[LEVELSPRUCE_REPORT_CAUSE] == b->cause[report];
        report++;
    }
    return held && report == 2;
}

static void blamed(void)
{
    enum { NORM = LEVELSPRUCE_WORD_NORM, EOS = LEVELSPRUCE_WORD_EOS, NOBODY = LEVELSPRUCE_CAUSE_NO_PORT };
    static const struct blame each[] = {
        { "no cause and no port", { NORM, EOS }, { 0, 1 }, { 0, 0 }, 0, 0, { 0, 0 }, { NOBODY, NOBODY } },
        { "a packet of port 1 refused", { NORM, EOS }, { 0, 1 }, { 0, 0 }, 0x10, 0, { 1, 0 }, { 1, NOBODY } },
        { "port 1 lacks a frame, and has no whole packet then", { EOS, NORM }, { 1, 0 }, { 0, 0 }, 0, 1, { 2, 6 }, { 1, 1 } },
        { "port 1 has the number of port 0", { EOS, NORM }, { 0, 0 }, { 0, 0 }, 0, 0, { 3, 3 }, { 1, 1 } },
        { "port 1 has another GID", { NORM, EOS }, { 0, 1 }, { 0, 1 }, 0, 0, { 4, 4 }, { 1, 1 } },
        { "port 0 has EOS and is not the highest", { EOS, NORM }, { 0, 1 }, { 0, 0 }, 0, 0, { 5, 5 }, { 0, 0 } },
        { "port 1 is the highest and has no EOS", { NORM, NORM }, { 0, 1 }, { 0, 0 }, 0, 0, { 5, 5 }, { 1, 1 } },
        { "numbers that are not 0 to 1 are no one port's", { NORM, EOS }, { 0, 2 }, { 0, 0 }, 0, 0, { 7, 7 }, { NOBODY, NOBODY } },
    };
    size_t i;

    check("after a start no port has a whole packet, and port 0 is the lowest", started() && cause_is(LEVELSPRUCE_CAUSE_UNSEEN, 0));
    for (i = 0; i < COUNT(each); i++)
        check(each[i].what, blame_holds(&each[i]));
}

static uint8_t port_byte(uint32_t port, int which)
{
    uint8_t ports[PORTS][LEVELSPRUCE_PORT_BYTES];

    return levelspruce_receiver_ports(state(), ROWS, ports, PORTS) == 0 ? ports[port][which] : 255;
}

static void anew(void)
{
    static uint8_t other[ROWS][LEVELSPRUCE_ROW_BYTES], kept[STORE];
    const uint8_t payload[P] = { 1, 2, 3 };
    uint8_t reply[2], after[2];
    int held;

    memcpy(other, rows, sizeof rows);
    memcpy(kept, store, sizeof store);
    held = levelspruce_receiver_reply(state(), ROWS, 0, reply, 2) == 0 && port_byte(0, LEVELSPRUCE_PORT_STATE) == LEVELSPRUCE_PORT_OK;
    held = held && levelspruce_receiver_anew(rows, ROWS, store, sizeof store) == 0 && memcmp(store, kept, sizeof store) == 0;
    held = held && levelspruce_receiver_frame(other, ROWS, 0, 1, 0xFF, payload, P, store, sizeof store) == 10
        && levelspruce_receiver_frame(other, ROWS, 1, 1, 0x31, payload, P, store, sizeof store) == 10;
    check("anew leaves the state that one flagged frame on every port leaves, and the store", held && memcmp(rows, other, sizeof rows) == 0);
    held = levelspruce_receiver_reply(state(), ROWS, 0, after, 2) == 0 && memcmp(reply, after, 2) == 0
        && port_byte(0, LEVELSPRUCE_PORT_STATE) == LEVELSPRUCE_PORT_OK && port_byte(1, LEVELSPRUCE_PORT_STATE) == LEVELSPRUCE_PORT_OK;
    check("member states and RS-Ack stay", held);
    check("no port is in step, each shows failed, nothing is heard and nothing is due",
          port_byte(0, LEVELSPRUCE_PORT_STEP) == 0 && port_byte(1, LEVELSPRUCE_PORT_STEP) == 0 && port_byte(0, LEVELSPRUCE_PORT_FAILED) == 1
              && port_byte(1, LEVELSPRUCE_PORT_FAILED) == 1 && heard_is(0, 0, 0, 0) && behind_is(LEVELSPRUCE_BEHIND_NONE, LEVELSPRUCE_BEHIND_NONE)
              && fetched(LEVELSPRUCE_MARK_NONE, 0));
    /* at 160 both come back at MFI1 0, port 1 with tag 160 too: in step at 191, foremost tag 191 is of epoch 12, so 13 is gathered and 14 reported */
    held = runs(160, 240, 0, NULL, 0) && fetched(LEVELSPRUCE_MARK_SURE, 14) && heard_is(1, 14, mst_of(14), ack_of(14));
    check("receiving begins again by itself", held);
}

static void settings(void)
{
    static uint8_t vc12[6][LEVELSPRUCE_ROW_BYTES];
    uint8_t sender[LEVELSPRUCE_SENDER_BYTES], bytes[LEVELSPRUCE_SENDER_SETTINGS_BYTES];
    uint32_t numbers[LEVELSPRUCE_SETTINGS];
    int held = levelspruce_receiver_settings(state(), ROWS, numbers, LEVELSPRUCE_SETTINGS) == 0 && numbers[LEVELSPRUCE_SETTING_KIND] == LEVELSPRUCE_KIND_H4
            && numbers[LEVELSPRUCE_SETTING_PORTS] == PORTS && numbers[LEVELSPRUCE_SETTING_PAYLOAD] == P && numbers[LEVELSPRUCE_SETTING_WINDOW] == W;

    check("settings are those of the start, after all these calls", held);
    held = levelspruce_receiver_start_as(LEVELSPRUCE_KIND_VC12, 1, 136, 512, 512 * 137, NULL, 0, NULL, 0, vc12, 6) == 0
        && levelspruce_receiver_settings((const uint8_t(*)[LEVELSPRUCE_ROW_BYTES])vc12, 6, numbers, LEVELSPRUCE_SETTINGS) == 0
        && numbers[0] == LEVELSPRUCE_KIND_VC12 && numbers[1] == 1 && numbers[2] == 136 && numbers[3] == 512;
    check("and of VC-12", held);
    held = levelspruce_sender_start_as(LEVELSPRUCE_KIND_VC12, 3, 31, sender, sizeof sender) == 0
        && levelspruce_sender_settings(sender, sizeof sender, bytes, sizeof bytes) == 0 && bytes[LEVELSPRUCE_SENDER_SETTING_KIND] == LEVELSPRUCE_KIND_VC12
        && bytes[LEVELSPRUCE_SENDER_SETTING_SLOTS] == 3 && bytes[LEVELSPRUCE_SENDER_SETTING_NEXT] == 31 && bytes[LEVELSPRUCE_SENDER_SETTING_WAIT] == 0
        && bytes[LEVELSPRUCE_SENDER_SETTING_RS_ACK] == 0;
    check("a sender's settings are those of its start, and its first epoch is the next", held);
    held = levelspruce_sender_start_epoch(sender, sizeof sender, 0, 255, 0) == 0 && levelspruce_sender_settings(sender, sizeof sender, bytes, sizeof bytes) == 0
        && bytes[2] == 0;
    check("after epoch 31 of VC-12 comes 0", held);
    held = levelspruce_sender_report(sender, sizeof sender, 5, 255, 1) == 0 && levelspruce_sender_add(sender, sizeof sender, 1) == 0
        && levelspruce_sender_remove(sender, sizeof sender, 1) == 0 && levelspruce_sender_settings(sender, sizeof sender, bytes, sizeof bytes) == 0
        && bytes[LEVELSPRUCE_SENDER_SETTING_WAIT] == 1 && bytes[LEVELSPRUCE_SENDER_SETTING_RS_ACK] == 1;
    check("a wait that opens and the bit that is remembered show", held);
}

/* Port 1 lies 100 frames behind and outside the window. Port 0 fails, so receiving stops, and begins on port 1 alone: epochs that were reported come once more.
 * That is one call, and at no time a host sees all ports without a place. It hands nothing over of the epoch handed over last and the seven before it.
 */
static void heard_again(void)
{
    const uint8_t nothing[P] = { 0 };
    uint8_t heard[LEVELSPRUCE_HEARD_BYTES] = { 0 }, ports[PORTS][LEVELSPRUCE_PORT_BYTES], port;
    uint32_t time, last = 0, again = 0, more = 0, newest = 0;
    int held = levelspruce_receiver_start(PORTS, P, W, sizeof store, rows, ROWS) == 0, dark = 0, old = 0;

    for (time = 8; time < 800; time++) {
        if (time >= 600)
            held &= levelspruce_receiver_frame(rows, ROWS, 0, 1, 0, nothing, P, store, sizeof store) == LEVELSPRUCE_ANSWER_FAILED;
        else
            hand(0, time, 0);
        if (time < 200)
            held &= levelspruce_receiver_frame(rows, ROWS, 1, 1, 0, nothing, P, store, sizeof store) == LEVELSPRUCE_ANSWER_FAILED;
        else
            hand(1, time - 100, 0);
        held &= levelspruce_receiver_ports(state(), ROWS, ports, PORTS) == 0;
        for (port = 0; port < PORTS && !ports[port][LEVELSPRUCE_PORT_READABLE]; port++)
            ;
        dark |= newest != 0 && port == PORTS;
        while (levelspruce_receiver_fetch(rows, ROWS, store, sizeof store, out, sizeof out, record, sizeof record) == 0
               && record[LEVELSPRUCE_REPORT_MARK] != 0) {
            uint8_t epoch = record[LEVELSPRUCE_REPORT_EPOCH];

            held &= levelspruce_receiver_heard(state(), ROWS, heard, sizeof heard) == 0;
            if (again == 0 && epoch < last) {
                again = epoch;
                old = heard[LEVELSPRUCE_HEARD_EPOCH] == again && heard[LEVELSPRUCE_HEARD_RS_ACK] == ack_of(again) && ack_of(again) != ack_of(last);
            }
            if (again == 0)
                last = epoch;
            if ((uint8_t)(newest - epoch) >= 8) {
                held &= newest == 0 || epoch == newest + 1;
                more += again != 0;
                newest = epoch;
            }
        }
    }
    check("where receiving begins on a slower line alone, epochs are heard once more, with what they said then", held && again != 0 && again < last && old);
    check("no host sees then that all ports have lost their place", !dark);
    check("one that hands nothing over of the last epoch and the seven before it hands each over once", held && more > 0 && newest == last + more);
}

int main(void)
{
    refusals();
    empty_group();
    blamed();
    a_link();
    damaged();
    anew();
    settings();
    heard_again();
    return tally();
}
