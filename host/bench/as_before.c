/* Holds the packet check of the archive to that of another one, whose calls are named before_: on drawn packets read, on drawn
 * fields written, and on receivers in whose rows the nibbles of packets have any high bits. Answers and all lent bytes are
 * compared. A line for each, fields parted by tabs; at the first difference one that begins with failed, and the status 1.
 */
#include "levelspruce.h"
#include <stdio.h>
#include <stdlib.h>
#include <string.h>

enum { PACKET = LEVELSPRUCE_PACKET_BYTES, FIELDS = LEVELSPRUCE_FIELDS_BYTES, ROW = LEVELSPRUCE_ROW_BYTES };

uint8_t before_packet_read(const uint8_t *h4, size_t h4_length, uint8_t *fields, size_t fields_length);
uint8_t before_packet_write(uint32_t epoch, uint32_t word, uint32_t gid, uint32_t mst, uint32_t rs_ack, uint32_t sq, uint32_t reserved, uint8_t *h4,
                            size_t h4_length);
uint8_t before_receiver_frame(uint8_t (*state)[ROW], size_t state_length, uint32_t port, uint32_t failed, uint8_t h4, const uint8_t *payload,
                              size_t payload_length, uint8_t *store, size_t store_length);
uint8_t before_receiver_fetch(uint8_t (*state)[ROW], size_t state_length, const uint8_t *store, size_t store_length, uint8_t *out, size_t out_length,
                              uint8_t *report, size_t report_length);

static uint64_t seed = 1;

/* a number below n, which is at most 2^32 */
static uint32_t below(uint64_t n)
{
    seed = seed * 6364136223846793005u + 1442695040888963407u;
    return (uint32_t)((seed >> 32) * n >> 32);
}

static void same(int held, const char *what, long i)
{
    if (held)
        return;
    printf("failed\tthe two archives differ in %s\tcase %ld\n", what, i);
    exit(1);
}

/* the right CRC, bit by bit, for the high nibbles; the low ones stay */
static void seal(uint8_t *h4)
{
    unsigned rest = 0;
    for (int k = 0; k < 14; k++)
        for (int bit = 7; bit >= 4; bit--)
            rest = (rest << 1 & 0xFF) ^ ((rest >> 7 ^ h4[k] >> bit) & 1 ? 0x07 : 0);
    h4[14] = (uint8_t)((rest & 0xF0) | (h4[14] & 0x0F));
    h4[15] = (uint8_t)((rest << 4 & 0xF0) | (h4[15] & 0x0F));
}

/* Any sixteen bytes, half of them under a right CRC, of which some have a bit changed. */
static void reading(void)
{
    enum { CASES = 8000000 };
    long right = 0;
    for (long i = 0; i < CASES; i++) {
        uint8_t h4[PACKET], fields[FIELDS] = { 0 }, before[FIELDS] = { 0 }, answer;
        for (int k = 0; k < PACKET; k++)
            h4[k] = (uint8_t)below(256);
        if (i % 2 == 0)
            seal(h4);
        if (i % 8 == 0)
            h4[below(16)] ^= (uint8_t)(0x10 << below(4));
        answer = levelspruce_packet_read(h4, sizeof h4, fields, sizeof fields);
        right += answer == LEVELSPRUCE_ANSWER_DONE;
        same(before_packet_read(h4, sizeof h4, before, sizeof before) == answer && memcmp(fields, before, FIELDS) == 0, "reading", i);
    }
    printf("as before\tread\tdrawn %d\tanswered 0 %ld\n", CASES, right);
}

/* Fields of which every eighth packet has one of any size, into bytes of any values. */
static void writing(void)
{
    enum { CASES = 8000000 };
    static const uint32_t words[] = { LEVELSPRUCE_WORD_ADD, LEVELSPRUCE_WORD_NORM, LEVELSPRUCE_WORD_EOS, LEVELSPRUCE_WORD_IDLE, LEVELSPRUCE_WORD_DNU };
    long right = 0;
    for (long i = 0; i < CASES; i++) {
        uint32_t f[] = { below(256), words[below(5)], below(2), below(256), below(2), below(256), below(LEVELSPRUCE_RESERVED_MOST + 1ul) };
        uint8_t h4[PACKET], before[PACKET], answer;
        if (i % 8 == 0)
            f[below(7)] = below(UINT64_C(1) << below(33));
        memset(h4, (int)below(256), sizeof h4);
        memcpy(before, h4, sizeof h4);
        answer = levelspruce_packet_write(f[0], f[1], f[2], f[3], f[4], f[5], f[6], h4, sizeof h4);
        right += answer == LEVELSPRUCE_ANSWER_DONE;
        same(before_packet_write(f[0], f[1], f[2], f[3], f[4], f[5], f[6], before, sizeof before) == answer && memcmp(h4, before, PACKET) == 0, "writing", i);
    }
    printf("as before\twritten\tdrawn %d\tanswered 0 %ld\n", CASES, right);
}

enum { PORTS = 2, WINDOW = 32, EPOCHS = 24 };

/* All that a receiver is lent. */
struct lent {
    uint8_t rows[LEVELSPRUCE_RECEIVER_ROWS(PORTS)][ROW];
    uint8_t store[LEVELSPRUCE_STORE_BYTES(PORTS, 1, WINDOW)];
    uint8_t out[LEVELSPRUCE_OUTPUT_BYTES(PORTS, 1)], report[LEVELSPRUCE_REPORT_BYTES];
};

/* High bits into the nibbles of a port's two packets, which are the third and fourth of its five rows. */
static void draw_high_bits(struct lent *l, uint32_t port)
{
    for (uint32_t row = port * 5 + 3; row < port * 5 + 5; row++)
        for (int k = 0; k < ROW; k++)
            l->rows[row][k] = (uint8_t)(l->rows[row][k] % 16 + below(16) * 16);
}

/* Two active ports; one packet in sixteen has a bit changed. Before each frame the rows are given other high bits. */
static void receiving(void)
{
    enum { CASES = 4000 };
    const size_t rows = LEVELSPRUCE_RECEIVER_ROWS(PORTS);
    long marks[LEVELSPRUCE_MARK_SURE + 1] = { 0 };
    for (long i = 0; i < CASES; i++) {
        struct lent now, before;
        uint32_t first = below(256);
        memset(&now, 0, sizeof now);
        same(levelspruce_receiver_start(PORTS, 1, WINDOW, sizeof now.store, now.rows, rows) == LEVELSPRUCE_ANSWER_DONE, "starting", i);
        before = now;
        for (uint32_t frame = 0; frame < EPOCHS * 16; frame++) {
            static uint8_t sent[PORTS][PACKET];
            for (uint32_t port = 0; port < PORTS; port++) {
                uint8_t payload = (uint8_t)below(256);
                if (frame % 16 == 0) {
                    same(levelspruce_packet_write((first + frame / 16) % 256, port == 0 ? LEVELSPRUCE_WORD_NORM : LEVELSPRUCE_WORD_EOS, 0, below(256), below(2),
                                                  port, below(LEVELSPRUCE_RESERVED_MOST + 1ul), sent[port], PACKET)
                             == LEVELSPRUCE_ANSWER_DONE,
                         "sending", i);
                    /* of the nibbles outside the multiframe number */
                    if (below(16) == 0)
                        sent[port][below(8)] ^= (uint8_t)(0x10 << below(4));
                }
                draw_high_bits(&now, port);
                memcpy(before.rows, now.rows, sizeof now.rows);
                same(levelspruce_receiver_frame(now.rows, rows, port, 0, sent[port][frame % 16], &payload, 1, now.store, sizeof now.store)
                             == before_receiver_frame(before.rows, rows, port, 0, sent[port][frame % 16], &payload, 1, before.store, sizeof before.store)
                         && memcmp(&now, &before, sizeof now) == 0,
                     "a frame", i);
                draw_high_bits(&now, port);
                memcpy(before.rows, now.rows, sizeof now.rows);
                same(levelspruce_receiver_fetch(now.rows, rows, now.store, sizeof now.store, now.out, sizeof now.out, now.report, sizeof now.report)
                             == before_receiver_fetch(before.rows, rows, before.store, sizeof before.store, before.out, sizeof before.out, before.report,
                                                      sizeof before.report)
                         && memcmp(&now, &before, sizeof now) == 0,
                     "a fetch", i);
                marks[now.report[LEVELSPRUCE_REPORT_MARK]]++;
            }
        }
    }
    printf("as before\treceivers with any high bits beside the nibbles\tdrawn %d\tsure %ld\theld %ld\n", CASES, marks[LEVELSPRUCE_MARK_SURE],
           marks[LEVELSPRUCE_MARK_HELD]);
}

int main(void)
{
    reading();
    writing();
    receiving();
    return 0;
}
