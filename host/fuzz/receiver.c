/* Any calls of the receiver, of each kind, and of the packets of a fixed group and of VC-12, by libFuzzer. */
#define _DEFAULT_SOURCE /* for mmap's MAP_ANONYMOUS */
#include <levelspruce.h>

#include "rooms.h"

/* What libFuzzer takes for new, since it cannot see into the archive: answers, marks and steps in each phase of receiving. */
__attribute__((section("__libfuzzer_extra_counters"))) static uint8_t counters[4 * 64];

/* All that is lent, for the group of the latest start. */
struct lent {
    uint32_t kind, ports, payload, window;
    int damaged; /* whether bytes of the state were changed between calls */
    struct kept state, store;
    uint32_t tag[LEVELSPRUCE_PORTS_MOST];
};

static uint8_t (*rows_of(struct block b))[16]
{
    return (uint8_t(*)[16])b.bytes;
}

static struct block lend_state(struct lent *l, struct program *g)
{
    return lend(STATE, l->state, about(g, l->state.length / 16) * 16);
}

/* Notes an answer or a mark, by call and by phase: not begun, begun, gathered. */
static void note(const struct lent *l, int call, uint32_t what)
{
    uint32_t phase = l->state.length < 8 ? 3 : l->state.bytes[6] == 0 ? 0 : l->state.bytes[7] == 0 ? 1 : 2;

    counters[phase * 64 + (uint32_t)call * 16 + what % 16] = 1;
}

/* Notes the breaks in a row of a port in step, and whether its last packet was odd; of VC-12 how far its run is. */
static void note_step(const struct lent *l, uint32_t port)
{
    size_t row = LEVELSPRUCE_RECEIVER_ROWS((size_t)port) * LEVELSPRUCE_ROW_BYTES;

    if (l->kind == LEVELSPRUCE_KIND_VC12) {
        uint32_t run = port < l->ports && row + LEVELSPRUCE_ROW_BYTES <= l->state.length ? l->state.bytes[row + 2] : 0;

        note(l, 3, 8 + (run > 0) + (run > 4) + (run > 32) + (run > 63));
        return;
    }
    if (port < l->ports && row + LEVELSPRUCE_ROW_BYTES <= l->state.length && l->state.bytes[row + 2] >= 32)
        note(l, 3, l->state.bytes[row + 9] % 4u + 4 * (l->state.bytes[row + 10] != 0));
}

/* Times of a start, or none: as many as there are ports, or off by a little, and any numbers. Whether one is too large. */
static int times_of(struct program *g, uint32_t ports, struct kept *times)
{
    size_t i, n = about(g, ports <= LEVELSPRUCE_PORTS_MOST ? ports : 1);
    int too_large = 0;

    *times = keep(n * sizeof(uint32_t));
    for (i = 0; i < n; i++) {
        uint32_t time = number_of(g);

        memcpy(times->bytes + i * sizeof time, &time, sizeof time);
        too_large = too_large || time > LEVELSPRUCE_TIMER_MOST;
    }
    return too_large;
}

/* H4, FIXED or VC-12, and seldom none that there is. */
static uint32_t kind_of(struct program *g)
{
    uint32_t byte = byte_of(g);

    if (byte < 200)
        return byte < 128 ? LEVELSPRUCE_KIND_H4 : LEVELSPRUCE_KIND_FIXED;
    return byte < 248 ? LEVELSPRUCE_KIND_VC12 : byte;
}

/* Whether a group of a kind can have this P and W. */
static int fits_kind(uint32_t kind, uint32_t payload, uint32_t window)
{
    if (kind == LEVELSPRUCE_KIND_VC12)
        return payload == LEVELSPRUCE_PAYLOAD_VC12 && window >= LEVELSPRUCE_WINDOW_LEAST_VC12 && window <= LEVELSPRUCE_WINDOW_MOST_VC12;
    return (kind == LEVELSPRUCE_KIND_H4 || kind == LEVELSPRUCE_KIND_FIXED) && payload >= 1 && payload <= 2340 && window >= 16 && window <= 2048;
}

static uint32_t epoch_frames(const struct lent *l)
{
    return l->kind == LEVELSPRUCE_KIND_VC12 ? LEVELSPRUCE_EPOCH_FRAMES_VC12 : LEVELSPRUCE_EPOCH_FRAMES;
}

static void start(struct lent *l, struct program *g, int with_times)
{
    uint32_t ports = number_of(g), payload = number_of(g), window = number_of(g), kind = with_times ? kind_of(g) : LEVELSPRUCE_KIND_H4;
    struct kept hold_off = { NULL, 0 }, restore = { NULL, 0 };
    int long_hold_off = with_times && times_of(g, ports, &hold_off), long_restore = with_times && times_of(g, ports, &restore);
    int fits = !long_hold_off && !long_restore && ports >= 1 && ports <= 64 && fits_kind(kind, payload, window);
    /* small enough for many calls a second */
    int small = fits && window <= 80 && (kind == LEVELSPRUCE_KIND_VC12 ? ports <= 4 : ports <= 8 && payload <= 40);
    size_t right = small ? LEVELSPRUCE_RECEIVER_ROWS(ports) : 6;
    size_t store = fits ? LEVELSPRUCE_STORE_BYTES(ports, payload, window) : number_of(g);
    struct kept fresh = keep(about(g, right) * 16);
    struct block state;
    uint8_t answer;

    fill(fresh.bytes, fresh.length, byte_of(g));
    state = lend(STATE, fresh, fresh.length);
    store = about(g, store);
    if (with_times) {
        struct block h = lend(PAYLOAD, hold_off, hold_off.length), r = lend(RESULT, restore, restore.length);

        answer = levelspruce_receiver_start_as(kind, ports, payload, window, store, (const uint32_t *)(const void *)h.bytes, h.length / 4,
                                               (const uint32_t *)(const void *)r.bytes, r.length / 4, rows_of(state), state.length / 16);
        stands(h, 0, "a start changed hold-offs");
        stands(r, 0, "a start changed waits-to-restore");
        free(hold_off.bytes);
        free(restore.bytes);
    } else
        answer = levelspruce_receiver_start(ports, payload, window, store, rows_of(state), state.length / 16);
    if (answer != 0 && answer != 4 && answer != 9)
        fail("an answer that start does not have");
    if ((answer == 4) == fits)
        fail("start answers 4 where it should not, or not where it should");
    stands(state, answer == 0 ? state.length : answer == 4 && state.length ? 16 : 0, "start changed what it must leave");
    put_back(fresh, state);
    if (answer != 0 || !small) {
        free(fresh.bytes);
        return;
    }
    free(l->state.bytes);
    free(l->store.bytes);
    l->state = fresh;
    l->store = keep(store);
    fill(l->store.bytes, store, byte_of(g));
    l->kind = kind;
    l->damaged = 0;
    l->ports = ports;
    l->payload = payload;
    l->window = window;
    memset(l->tag, 0, sizeof l->tag);
}

static void frame(struct lent *l, struct program *g, uint32_t port, uint32_t failed, uint8_t h4)
{
    static const struct kept nothing;
    struct block state = lend_state(l, g), store = lend(STORE, l->store, about(g, l->store.length));
    struct block payload = lend(PAYLOAD, nothing, about(g, l->payload));
    uint8_t answer;

    fill(payload.bytes, payload.length, byte_of(g));
    memcpy(before[PAYLOAD], payload.bytes, payload.length);
    answer = levelspruce_receiver_frame(rows_of(state), state.length / 16, port, failed, h4, payload.bytes, payload.length, store.bytes, store.length);
    if (answer != 0 && answer != 1 && answer != 9 && answer != 10 && answer != 11 && answer != 12)
        fail("an answer that a frame does not have");
    if (failed && (answer == 0 || answer == 11 || answer == 12))
        fail("a flagged frame was taken");
    stands(payload, 0, "a frame's payload changed");
    stands(store, answer == 0 ? store.length : 0, "a refused frame changed the store");
    stands(state, answer == 0 || answer == 10 || answer == 12 ? state.length : 0, "a refused frame changed the state");
    put_back(l->state, state);
    put_back(l->store, store);
    note(l, 0, answer);
    note_step(l, port);
    if (port < l->ports && answer != 11)
        l->tag[port] = (l->tag[port] + 1) % 4096;
}

static const uint32_t words[] = { LEVELSPRUCE_WORD_NORM, LEVELSPRUCE_WORD_EOS, LEVELSPRUCE_WORD_ADD, LEVELSPRUCE_WORD_IDLE, LEVELSPRUCE_WORD_DNU };

/* The byte of a frame of VC-12; a start is said wrongly now and then. */
static uint8_t vc12_byte(const struct lent *l, uint32_t port, uint32_t word)
{
    uint32_t tag = l->tag[port] % 1024, place = tag % LEVELSPRUCE_PACKET_BYTES_VC12;
    uint8_t bits[LEVELSPRUCE_PACKET_BYTES_VC12];

    if (levelspruce_packet_write_vc12(tag / 32, word < 200 ? words[port + 1 == l->ports] : words[word % 5], 0, 0, 0, port, word % 16, bits, sizeof bits)
        != LEVELSPRUCE_ANSWER_DONE)
        fail("a packet of VC-12 was refused");
    return word >= 250 && place == word % 32 ? bits[place] ^ LEVELSPRUCE_VC12_START : bits[place];
}

/* Frames as a sender sends them, of all ports, each behind the tag it has come to. */
static void frames(struct lent *l, struct program *g)
{
    uint32_t times = byte_of(g), word = byte_of(g), port;
    uint8_t h4[LEVELSPRUCE_PACKET_BYTES];
    struct program right = { NULL, NULL };

    while (times-- > 0)
        for (port = 0; port < l->ports; port++) {
            uint32_t tag = l->tag[port], epoch = (tag + 8) % 4096 / 16, last = port + 1 == l->ports;

            if (l->kind == LEVELSPRUCE_KIND_VC12) {
                frame(l, &right, port, 0, vc12_byte(l, port, word));
                continue;
            }
            /* a packet of the group's kind, and of the other one now and then */
            if ((l->kind == LEVELSPRUCE_KIND_FIXED) != (word >= 250)) {
                if (levelspruce_packet_write_fixed(epoch, word < 220 ? l->ports - 1 - port : word, h4, sizeof h4) != LEVELSPRUCE_ANSWER_DONE)
                    fail("a fixed group's packet was refused");
                h4[0] ^= (uint8_t)(word << 4);
            } else if (levelspruce_packet_write(epoch, word < 200 ? words[last] : words[word % 5], 0, 0, 0, port,
                                                (epoch * 40503 + word) % (LEVELSPRUCE_RESERVED_MOST + 1), h4, sizeof h4)
                       != LEVELSPRUCE_ANSWER_DONE)
                fail("a packet was refused");
            frame(l, &right, port, 0, h4[(tag + 8) % 16]);
        }
}

static void fetch(struct lent *l, struct program *g)
{
    static const struct kept nothing;
    struct block state = lend_state(l, g), store = lend(STORE, l->store, about(g, l->store.length));
    struct block out = lend(OUT, nothing, about(g, (size_t)l->ports * epoch_frames(l) * l->payload));
    struct block report = lend(RESULT, nothing, about(g, LEVELSPRUCE_REPORT_BYTES));
    uint8_t answer, mark, cause;
    size_t bytes;

    answer = levelspruce_receiver_fetch(rows_of(state), state.length / 16, store.bytes, store.length, out.bytes, out.length, report.bytes, report.length);
    if (answer != 0 && answer != 9)
        fail("an answer that a fetch does not have");
    mark = answer == 0 ? report.bytes[LEVELSPRUCE_REPORT_MARK] : 0;
    bytes = answer == 0 ? (size_t)report.bytes[4] << 24 | (size_t)report.bytes[5] << 16 | (size_t)report.bytes[6] << 8 | report.bytes[7] : 0;
    cause = answer == 0 ? report.bytes[LEVELSPRUCE_REPORT_CAUSE] : 0;
    if (mark > LEVELSPRUCE_MARK_SURE || bytes > out.length || (mark < LEVELSPRUCE_MARK_DOUBTFUL && bytes != 0) || cause > LEVELSPRUCE_CAUSE_NUMBERS
        || (cause == LEVELSPRUCE_CAUSE_NONE) != (mark == LEVELSPRUCE_MARK_NONE || mark == LEVELSPRUCE_MARK_SURE))
        fail("a report that cannot be");
    if (l->kind == LEVELSPRUCE_KIND_FIXED && !l->damaged
        && (mark == LEVELSPRUCE_MARK_DOUBTFUL || (mark == LEVELSPRUCE_MARK_SURE && report.bytes[LEVELSPRUCE_REPORT_X] != l->ports)))
        fail("a fixed group's report is doubtful, or not of all ports");
    stands(store, 0, "a fetch changed the store");
    stands(out, bytes, "a fetch changed output beyond its bytes");
    stands(report, answer == 0 ? report.length : 0, "a refused fetch changed the record");
    stands(state, mark != LEVELSPRUCE_MARK_NONE ? state.length : 0, "a fetch with no report changed the state");
    put_back(l->state, state);
    note(l, 1, answer ? answer : mark);
    note(l, 2, (uint32_t)(bytes / (1 + epoch_frames(l) * l->payload)));
}

static void read_out(struct lent *l, struct program *g)
{
    static const struct kept nothing;
    struct block state = lend_state(l, g), result = lend(RESULT, nothing, about(g, l->ports) * LEVELSPRUCE_PORT_BYTES);
    const uint8_t(*rows)[16] = (const uint8_t(*)[16])rows_of(state);
    uint8_t answer = levelspruce_receiver_ports(rows, state.length / 16, (uint8_t(*)[8])result.bytes, result.length / 8);

    if (answer != 0 && answer != 9)
        fail("an answer that reading the ports does not have");
    stands(result, answer == 0 ? result.length : 0, "refused ports were written");
    result = lend(RESULT, nothing, about(g, LEVELSPRUCE_REPLY_BYTES));
    answer = levelspruce_receiver_reply(rows, state.length / 16, (uint8_t)byte_of(g), result.bytes, result.length);
    if (answer != 0 && answer != 9)
        fail("an answer that a reply does not have");
    stands(result, answer == 0 ? result.length : 0, "a refused reply was written");
    if (answer == 0 && state.length == l->state.length && l->kind == LEVELSPRUCE_KIND_FIXED && !l->damaged && (result.bytes[0] != 0 || result.bytes[1] != 0))
        fail("a fixed group has a reply");
    stands(state, 0, "reading out changed the state");
}

/* What it saw, why the next report is not sure, what the far end says, how far ports lie behind, and its settings. */
static void read_more(struct lent *l, struct program *g)
{
    static const struct kept nothing;
    struct block state = lend_state(l, g), result = lend(RESULT, nothing, about(g, l->ports) * LEVELSPRUCE_SEEN_BYTES);
    const uint8_t(*rows)[16] = (const uint8_t(*)[16])rows_of(state);
    uint8_t answer = levelspruce_receiver_seen(rows, state.length / 16, (uint8_t(*)[LEVELSPRUCE_SEEN_BYTES])result.bytes,
                                               result.length / LEVELSPRUCE_SEEN_BYTES);

    if (answer != 0 && answer != 9)
        fail("an answer that what was seen does not have");
    stands(result, answer == 0 ? result.length : 0, "refused packets were written");
    result = lend(RESULT, nothing, about(g, LEVELSPRUCE_CAUSE_BYTES));
    answer = levelspruce_receiver_cause(rows, state.length / 16, result.bytes, result.length);
    if (answer != 0 && answer != 9)
        fail("an answer that a cause does not have");
    stands(result, answer == 0 ? result.length : 0, "a refused cause was written");
    /* a port is named by the causes 1 to 6, and by no other */
    if (answer == 0
        && (result.bytes[0] > LEVELSPRUCE_CAUSE_NUMBERS
            || (result.bytes[1] == LEVELSPRUCE_CAUSE_NO_PORT) != (result.bytes[0] == LEVELSPRUCE_CAUSE_NONE || result.bytes[0] == LEVELSPRUCE_CAUSE_NUMBERS)
            || (result.bytes[1] != LEVELSPRUCE_CAUSE_NO_PORT && result.bytes[1] >= LEVELSPRUCE_PORTS_MOST)))
        fail("a cause that there is not, or a port that is not its");
    result = lend(RESULT, nothing, about(g, LEVELSPRUCE_HEARD_BYTES));
    answer = levelspruce_receiver_heard(rows, state.length / 16, result.bytes, result.length);
    if (answer != 0 && answer != 9)
        fail("an answer that what was heard does not have");
    stands(result, answer == 0 ? result.length : 0, "what was heard was written and refused");
    if (answer == 0 && (result.bytes[0] > 1 || result.bytes[3] > 1 || (result.bytes[0] == 0 && (result.bytes[1] | result.bytes[2] | result.bytes[3]))))
        fail("something is heard that cannot be");
    result = lend(RESULT, nothing, about(g, l->ports) * sizeof(uint32_t));
    answer = levelspruce_receiver_behind(rows, state.length / 16, (uint32_t *)(void *)result.bytes, result.length / sizeof(uint32_t));
    if (answer != 0 && answer != 9)
        fail("an answer that frames behind do not have");
    stands(result, answer == 0 ? result.length : 0, "refused frames behind were written");
    result = lend(RESULT, nothing, about(g, LEVELSPRUCE_SETTINGS) * sizeof(uint32_t));
    answer = levelspruce_receiver_settings(rows, state.length / 16, (uint32_t *)(void *)result.bytes, result.length / sizeof(uint32_t));
    if (answer != 0 && answer != 9)
        fail("an answer that settings do not have");
    stands(result, answer == 0 ? result.length : 0, "refused settings were written");
    stands(state, 0, "reading changed the state");
}

static void begin_anew(struct lent *l, struct program *g)
{
    struct block state = lend_state(l, g), store = lend(STORE, l->store, about(g, l->store.length));
    uint8_t answer = levelspruce_receiver_anew(rows_of(state), state.length / 16, store.bytes, store.length);

    if (answer != 0 && answer != 9)
        fail("an answer that a beginning anew does not have");
    stands(store, 0, "a beginning anew changed the store");
    stands(state, answer == 0 ? state.length : 0, "a refused beginning anew changed the state");
    put_back(l->state, state);
}

/* Some bytes of the state become any. */
static void damage(struct lent *l, struct program *g)
{
    uint32_t at = number_of(g), i, n = byte_of(g) % 16;

    l->damaged = 1;
    for (i = 0; i <= n && l->state.length; i++)
        l->state.bytes[(at + i) % l->state.length] = (uint8_t)byte_of(g);
}

/* A fixed group's packet written, and any bytes read as one. */
static void packets(struct program *g)
{
    static const struct kept nothing;
    uint32_t epoch = number_of(g), sq = number_of(g);
    struct block h4 = lend(STATE, nothing, about(g, LEVELSPRUCE_PACKET_BYTES)), fields = lend(RESULT, nothing, about(g, LEVELSPRUCE_FIELDS_BYTES));
    uint8_t answer = levelspruce_packet_write_fixed(epoch, sq, h4.bytes, h4.length);
    int right = h4.length == LEVELSPRUCE_PACKET_BYTES && fields.length == LEVELSPRUCE_FIELDS_BYTES;

    if (answer != (h4.length != LEVELSPRUCE_PACKET_BYTES ? 9 : epoch > 255 || sq > 255 ? 8 : 0))
        fail("an answer that writing a fixed group's packet does not have");
    stands(h4, answer == 0 ? h4.length : 0, "a packet that is refused was written");
    if (byte_of(g) < 64) {
        fill(h4.bytes, h4.length, byte_of(g));
        answer = LEVELSPRUCE_ANSWER_FIELD; /* other bytes than those that were written */
    }
    memcpy(before[STATE], h4.bytes, h4.length);
    epoch = right && answer == 0 ? epoch : 256;
    answer = levelspruce_packet_read_fixed(h4.bytes, h4.length, fields.bytes, fields.length);
    if (answer != (!right ? 9 : h4.bytes[10] >= 16 ? 6 : 0))
        fail("an answer that reading a fixed group's packet does not have");
    if (epoch < 256 && (answer != 0 || fields.bytes[LEVELSPRUCE_FIELD_EPOCH] != epoch || fields.bytes[LEVELSPRUCE_FIELD_SQ] != sq))
        fail("a written packet does not read as given");
    stands(fields, answer == 0 ? fields.length : 0, "fields of a refused packet were written");
    stands(h4, 0, "reading changed a packet");
}

/* The same of VC-12's packets. */
static void packets_vc12(struct program *g)
{
    static const struct kept nothing;
    uint32_t epoch = number_of(g), word = byte_of(g) % 16, gid = byte_of(g) % 4, mst = number_of(g), sq = number_of(g), reserved = byte_of(g) % 32;
    struct block bits = lend(STATE, nothing, about(g, LEVELSPRUCE_PACKET_BYTES_VC12)), fields = lend(RESULT, nothing, about(g, LEVELSPRUCE_FIELDS_BYTES));
    uint8_t answer = levelspruce_packet_write_vc12(epoch, word, gid, mst, gid / 2, sq, reserved, bits.bytes, bits.length);
    int assigned = word == 1 || word == 2 || word == 3 || word == 5 || word == 15;
    int right = bits.length == LEVELSPRUCE_PACKET_BYTES_VC12 && fields.length == LEVELSPRUCE_FIELDS_BYTES;

    if (answer != (bits.length != LEVELSPRUCE_PACKET_BYTES_VC12 ? 9 : epoch > 31 || gid > 1 || mst > 255 || sq > 63 || reserved > 15 || !assigned ? 8 : 0))
        fail("an answer that writing a packet of VC-12 does not have");
    stands(bits, answer == 0 ? bits.length : 0, "a packet that is refused was written");
    if (byte_of(g) < 64) {
        fill(bits.bytes, bits.length, byte_of(g));
        answer = LEVELSPRUCE_ANSWER_FIELD;
    }
    memcpy(before[STATE], bits.bytes, bits.length);
    epoch = right && answer == 0 ? epoch : 256;
    answer = levelspruce_packet_read_vc12(bits.bytes, bits.length, fields.bytes, fields.length);
    if (right ? answer != 0 && answer != 5 && answer != 6 && answer != 7 : answer != 9)
        fail("an answer that reading a packet of VC-12 does not have");
    if (epoch < 256
        && (answer != 0 || fields.bytes[LEVELSPRUCE_FIELD_EPOCH] != epoch || fields.bytes[LEVELSPRUCE_FIELD_SQ] != sq
            || fields.bytes[LEVELSPRUCE_FIELD_MST] != mst || fields.bytes[LEVELSPRUCE_FIELD_WORD] != word))
        fail("a written packet of VC-12 does not read as given");
    stands(fields, answer == 0 ? fields.length : 0, "fields of a refused packet were written");
    stands(bits, 0, "reading changed a packet");
}

int LLVMFuzzerTestOneInput(const uint8_t *data, size_t size)
{
    struct program g = { data, data + size };
    struct lent l = { 0, 0, 0, 0, 0, { NULL, 0 }, { NULL, 0 }, { 0 } };

    open_rooms();
    turn = 0;
    while (g.at < g.end)
        switch (byte_of(&g) % 8) {
        case 0: start(&l, &g, 0); break;
        case 1: {
            uint32_t port = number_of(&g), failed = byte_of(&g) < 16;
            frame(&l, &g, port, failed, (uint8_t)byte_of(&g));
            break;
        }
        case 2: frames(&l, &g); break;
        case 3: fetch(&l, &g); break;
        case 4:
            if (byte_of(&g) < 128)
                read_out(&l, &g);
            else
                read_more(&l, &g);
            break;
        case 5: {
            uint32_t which = byte_of(&g);
            if (which < 128)
                damage(&l, &g);
            else if (which < 224)
                start(&l, &g, 1);
            else if (which < 240)
                begin_anew(&l, &g);
            else if (which < 248)
                packets(&g);
            else
                packets_vc12(&g);
            break;
        }
        case 6: {
            uint32_t port = byte_of(&g) % LEVELSPRUCE_PORTS_MOST;
            l.tag[port] = number_of(&g) % 4096;
            break;
        }
        default:
            fetch(&l, &g);
            fetch(&l, &g);
            break;
        }
    free(l.state.bytes);
    free(l.store.bytes);
    return 0;
}
