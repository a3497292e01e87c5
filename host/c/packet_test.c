/*
 * Tests of the packet calls over the archive: the worked examples, every answer number, the order of the
 * refusals, and that a refusal changes no byte.
 *
 * Usage: packet_test PACKETS, a file with rows of fields and H4 bytes.
 */
#include <levelspruce.h>

#include "check.h"

enum { LENT_MOST = 64 };
#include "lent.h"

enum { PACKET = LEVELSPRUCE_PACKET_BYTES, BYTES = LEVELSPRUCE_FIELDS_BYTES, CRC_PLACE = 14, WORD_PLACE = 10 };

/* The fields of a packet; the reserved bits come last and take four bytes. */
enum { FIELDS = LEVELSPRUCE_FIELD_RESERVED + 1 };

/* The fields in the order of the arguments of writing, which is also the order of reading. */
struct packet {
    uint32_t field[FIELDS];
};

static const char *const field_name[FIELDS] = { "epoch", "word", "GID", "MST", "RS-Ack", "SQ", "reserved number" };

static const struct packet p1 = { { 0, LEVELSPRUCE_WORD_IDLE, 0, 255, 0, 255, 0 } };
static const uint8_t p1_h4[PACKET] = { 0xF8, 0xF9, 0x0A, 0x0B, 0x0C, 0x0D, 0xFE, 0xFF, 0x00, 0x01, 0x52, 0x03, 0x04, 0x05, 0x96, 0x97 };

static const struct packet p2 = { { 1, LEVELSPRUCE_WORD_EOS, 1, 255, 0, 0, 0 } };
static const uint8_t p2_h4[PACKET] = { 0xF8, 0xF9, 0x0A, 0x0B, 0x0C, 0x0D, 0x0E, 0x0F, 0x00, 0x11, 0x32, 0x13, 0x04, 0x05, 0xC6, 0x37 };

/* One whose fields all differ. */
static const struct packet mixed = { { 200, LEVELSPRUCE_WORD_DNU, 1, 0xA5, 1, 77, 0 } };
static const uint8_t mixed_h4[PACKET] = { 0xA8, 0x59, 0x1A, 0x0B, 0x0C, 0x0D, 0x4E, 0xDF, 0xC0, 0x81, 0xF2, 0x13, 0x04, 0x05, 0xA6, 0x77 };

static const uint32_t assigned[] = { LEVELSPRUCE_WORD_ADD, LEVELSPRUCE_WORD_NORM, LEVELSPRUCE_WORD_EOS, LEVELSPRUCE_WORD_IDLE, LEVELSPRUCE_WORD_DNU };

static int is_assigned(uint32_t word)
{
    size_t i;

    for (i = 0; i < COUNT(assigned); i++)
        if (assigned[i] == word)
            return 1;
    return 0;
}

/* ---- calls on lent buffers */

static uint8_t write_into(struct lent *h4, size_t length, const struct packet *p)
{
    lend(h4, NULL, 0);
    return levelspruce_packet_write(p->field[0], p->field[1], p->field[2], p->field[3], p->field[4], p->field[5], p->field[6], lent_bytes(h4), length);
}

static int writes(const struct packet *p, const uint8_t *expected)
{
    struct lent h4;

    return write_into(&h4, PACKET, p) == LEVELSPRUCE_ANSWER_DONE && stands(&h4, PACKET) && memcmp(lent_bytes(&h4), expected, PACKET) == 0;
}

static int write_refuses(const struct packet *p, size_t length, uint8_t answer)
{
    struct lent h4;

    return write_into(&h4, length, p) == answer && untouched(&h4);
}

static uint32_t reserved_in(const uint8_t *fields)
{
    const uint8_t *four = fields + LEVELSPRUCE_FIELD_RESERVED;

    return (uint32_t)four[0] << 24 | (uint32_t)four[1] << 16 | (uint32_t)four[2] << 8 | four[3];
}

/* Whether reading gives the fields of p, and changes nothing but the fields' bytes. */
static int reads(const uint8_t *bytes, const struct packet *p)
{
    struct lent h4, fields;
    int i, held;

    lend(&h4, bytes, PACKET);
    lend(&fields, NULL, 0);
    held = levelspruce_packet_read(lent_bytes(&h4), PACKET, lent_bytes(&fields), BYTES) == LEVELSPRUCE_ANSWER_DONE && untouched(&h4) && stands(&fields, BYTES);
    for (i = 0; i < LEVELSPRUCE_FIELD_RESERVED; i++)
        held = held && lent_bytes(&fields)[i] == p->field[i];
    return held && reserved_in(lent_bytes(&fields)) == p->field[LEVELSPRUCE_FIELD_RESERVED];
}

static int read_refuses_lengths(const uint8_t *bytes, size_t h4_length, size_t fields_length, uint8_t answer)
{
    struct lent h4, fields;

    lend(&h4, bytes, PACKET);
    lend(&fields, NULL, 0);
    return levelspruce_packet_read(lent_bytes(&h4), h4_length, lent_bytes(&fields), fields_length) == answer && untouched(&h4) && untouched(&fields);
}

static int read_refuses(const uint8_t *bytes, uint8_t answer)
{
    return read_refuses_lengths(bytes, PACKET, BYTES, answer);
}

/* ---- packets made by hand */

/* The remainder by x^8+x^2+x+1 of the first fourteen high nibbles, times x^8. */
static unsigned remainder_of(const uint8_t *h4)
{
    unsigned left = 0;
    int i, bit;

    for (i = 0; i < PACKET; i++)
        for (bit = 7; bit >= 4; bit--) {
            left = left << 1 | (i < CRC_PLACE ? h4[i] >> bit & 1u : 0u);
            if (left & 0x100u)
                left ^= 0x107u;
        }
    return left;
}

static void put_nibble(uint8_t *h4, int place, unsigned nibble)
{
    h4[place] = (uint8_t)(nibble << 4 | (h4[place] & 0x0Fu));
}

static void put_crc(uint8_t *h4, unsigned crc)
{
    put_nibble(h4, CRC_PLACE, crc >> 4 & 15u);
    put_nibble(h4, CRC_PLACE + 1, crc & 15u);
}

/* The reserved and zero bits in the order of sending: each one's frame in the packet, and the bit of its byte. */
enum { RESERVED_BITS = 26 };
static const struct {
    int place;
    uint8_t bit;
} reserved_place[RESERVED_BITS] = {
    { 2, 0x80 },  { 2, 0x40 },  { 2, 0x20 }, /* beside RS-Ack */
    { 3, 0x80 },  { 3, 0x40 },  { 3, 0x20 },  { 3, 0x10 },  { 4, 0x80 },  { 4, 0x40 },  { 4, 0x20 },  { 4, 0x10 },
    { 5, 0x80 },  { 5, 0x40 },  { 5, 0x20 },  { 5, 0x10 }, /* MFI1 11 to 13 */
    { 11, 0x80 }, { 11, 0x40 }, { 11, 0x20 },              /* beside GID */
    { 12, 0x80 }, { 12, 0x40 }, { 12, 0x20 }, { 12, 0x10 }, { 13, 0x80 }, { 13, 0x40 }, { 13, 0x20 }, { 13, 0x10 },
};

/* The packet as the rules lay it out, written by hand: each field in the nibbles of its frames, then the CRC. */
static void by_hand(uint8_t *h4, const struct packet *p)
{
    static const struct {
        int field, place, times;
    } nibbles[] = {
        { LEVELSPRUCE_FIELD_MST, 0, 16 },  { LEVELSPRUCE_FIELD_MST, 1, 1 },   { LEVELSPRUCE_FIELD_RS_ACK, 2, 1 },
        { LEVELSPRUCE_FIELD_SQ, 6, 16 },   { LEVELSPRUCE_FIELD_SQ, 7, 1 },    { LEVELSPRUCE_FIELD_EPOCH, 8, 16 },
        { LEVELSPRUCE_FIELD_EPOCH, 9, 1 }, { LEVELSPRUCE_FIELD_WORD, 10, 1 }, { LEVELSPRUCE_FIELD_GID, 11, 1 },
    };
    size_t i;

    for (i = 0; i < PACKET; i++)
        h4[i] = (uint8_t)((i + 8) % 16);
    for (i = 0; i < COUNT(nibbles); i++)
        put_nibble(h4, nibbles[i].place, p->field[nibbles[i].field] / (unsigned)nibbles[i].times % 16);
    for (i = 0; i < RESERVED_BITS; i++)
        if (p->field[LEVELSPRUCE_FIELD_RESERVED] >> (RESERVED_BITS - 1 - i) & 1)
            h4[reserved_place[i].place] |= reserved_place[i].bit;
    put_crc(h4, remainder_of(h4));
}

/* P2 with another control word, and the CRC that belongs to it changed by the given bits. */
static void with_word(uint8_t *h4, unsigned word, unsigned changed)
{
    memcpy(h4, p2_h4, PACKET);
    put_nibble(h4, WORD_PLACE, word);
    put_crc(h4, remainder_of(h4) ^ changed);
}

/* ---- tests of writing */

static void test_examples(void)
{
    check("P1 is written", writes(&p1, p1_h4));
    check("P1 is read", reads(p1_h4, &p1));
    check("P2 is written", writes(&p2, p2_h4));
    check("P2 is read", reads(p2_h4, &p2));
    check("the packet whose fields all differ is written", writes(&mixed, mixed_h4));
    check("the packet whose fields all differ is read", reads(mixed_h4, &mixed));
}

/* Every value of every field but the reserved bits, beside those of P2, is written at its place and reads back. */
static void test_write_takes_all_that_fits(void)
{
    static const uint32_t most[LEVELSPRUCE_FIELD_RESERVED] = { 255, 15, 1, 255, 1, 255 };
    int f, held;
    char name[80];

    for (f = 0; f < LEVELSPRUCE_FIELD_RESERVED; f++) {
        struct packet p = p2;
        uint32_t value;

        held = 1;
        for (value = 0; value <= most[f]; value++) {
            uint8_t h4[PACKET];

            p.field[f] = value;
            if (f == LEVELSPRUCE_FIELD_WORD && !is_assigned(value))
                continue;
            by_hand(h4, &p);
            held = held && writes(&p, h4) && reads(h4, &p);
        }
        sprintf(name, "every %s that fits is written at its place and read there", field_name[f]);
        check(name, held);
    }
}

/* MST of all shapes, with both RS-Acks and in other packets than P2. */
static void test_mst_of_all_shapes(void)
{
    struct packet p = { { 200, LEVELSPRUCE_WORD_DNU, 1, 0, 1, 77, 0 } };
    uint8_t h4[PACKET];
    uint32_t mst, ack;
    int held = 1;

    for (mst = 0; mst < 256; mst++)
        for (ack = 0; ack < 2; ack++) {
            p.field[LEVELSPRUCE_FIELD_EPOCH] = mst * 7 % 256;
            p.field[LEVELSPRUCE_FIELD_WORD] = assigned[mst % COUNT(assigned)];
            p.field[LEVELSPRUCE_FIELD_MST] = mst;
            p.field[LEVELSPRUCE_FIELD_RS_ACK] = ack;
            by_hand(h4, &p);
            held = held && writes(&p, h4) && reads(h4, &p);
        }
    check("MST of all shapes is written and read, with both RS-Acks", held);
}

/* A value that is too large is refused, also where its low bits alone would fit. */
static void test_write_refuses_too_large(void)
{
    static const uint32_t first_too_large[LEVELSPRUCE_FIELD_RESERVED] = { 256, 16, 2, 256, 2, 256 };
    int f;

    for (f = 0; f < LEVELSPRUCE_FIELD_RESERVED; f++) {
        const uint32_t first = first_too_large[f];
        /* P2's own value under high bits that do not belong there */
        const uint32_t fits = p2.field[f];
        const uint32_t values[] = { first,
                                    first + 1,
                                    first | fits,
                                    256,
                                    256 | fits,
                                    257,
                                    65535,
                                    65536,
                                    65536 | fits,
                                    65537,
                                    2 * 65536u,
                                    255 * 65536u,
                                    256 * 65536u | fits,
                                    0x80000000u | fits,
                                    0xFFFF0000u | fits,
                                    0xFFFFFF00u | fits,
                                    UINT32_MAX };
        int held = 1;
        size_t i;
        char name[80];

        for (i = 0; i < COUNT(values); i++) {
            struct packet p = p2;

            p.field[f] = values[i];
            held = held && write_refuses(&p, PACKET, LEVELSPRUCE_ANSWER_FIELD);
        }
        sprintf(name, "writing answers 8 where the %s is too large", field_name[f]);
        check(name, held);
    }
}

static void test_write_refuses_reserved_too_large(void)
{
    static const uint32_t values[] = { LEVELSPRUCE_RESERVED_MOST + 1u,
                                       LEVELSPRUCE_RESERVED_MOST + 2u,
                                       0x04000001u,
                                       0x07FFFFFFu,
                                       0x08000000u,
                                       0x10000000u,
                                       0x40000000u,
                                       0x80000000u,
                                       UINT32_MAX - 1,
                                       UINT32_MAX };
    struct packet p = mixed;
    int held = 1;
    size_t i;

    for (i = 0; i < COUNT(values); i++) {
        p.field[LEVELSPRUCE_FIELD_RESERVED] = values[i];
        held = held && write_refuses(&p, PACKET, LEVELSPRUCE_ANSWER_FIELD);
    }
    check("writing answers 8 where the reserved number is too large", held);
}

static void test_write_refuses_words(void)
{
    struct packet p = p2;
    uint32_t word;
    int unassigned = 1;

    p.field[LEVELSPRUCE_FIELD_WORD] = LEVELSPRUCE_WORD_FIXED;
    check("writing answers 8 for FIXED", write_refuses(&p, PACKET, LEVELSPRUCE_ANSWER_FIELD));
    for (word = 1; word <= 1000; word++) {
        p.field[LEVELSPRUCE_FIELD_WORD] = word;
        if (!is_assigned(word))
            unassigned = unassigned && write_refuses(&p, PACKET, LEVELSPRUCE_ANSWER_FIELD);
    }
    check("writing answers 8 for every unassigned word", unassigned);
}

static const size_t wrong_packet_length[] = { 0, 1, 15, 17, 64 };
static const size_t wrong_fields_length[] = { 0, 1, 6, 7, 9, 11, 16, 64 };

static void test_write_refuses_lengths(void)
{
    struct packet wrong = p1;
    int length = 1, order = 1;
    size_t i;

    wrong.field[LEVELSPRUCE_FIELD_EPOCH] = 256;
    wrong.field[LEVELSPRUCE_FIELD_WORD] = LEVELSPRUCE_WORD_FIXED;
    for (i = 0; i < COUNT(wrong_packet_length); i++) {
        length = length && write_refuses(&p1, wrong_packet_length[i], LEVELSPRUCE_ANSWER_LENGTH);
        order = order && write_refuses(&wrong, wrong_packet_length[i], LEVELSPRUCE_ANSWER_LENGTH);
    }
    check("writing answers 9 for a wrong length", length);
    check("writing answers 9 before 8", order);
    check("writing answers 9 for NULL with length 0",
          levelspruce_packet_write(0, LEVELSPRUCE_WORD_IDLE, 0, 255, 0, 255, 0, NULL, 0) == LEVELSPRUCE_ANSWER_LENGTH);
}

/* ---- tests of reading */

static void test_read_refuses_lengths(void)
{
    static const uint8_t bad_crc[PACKET] = { 0xF8 };
    struct lent lent;
    int h4 = 1, fields = 1, both = 1, order = 1;
    size_t i, j;

    for (i = 0; i < COUNT(wrong_packet_length); i++) {
        h4 = h4 && read_refuses_lengths(p1_h4, wrong_packet_length[i], BYTES, LEVELSPRUCE_ANSWER_LENGTH);
        order = order && read_refuses_lengths(bad_crc, wrong_packet_length[i], BYTES, LEVELSPRUCE_ANSWER_LENGTH);
        for (j = 0; j < COUNT(wrong_fields_length); j++)
            both = both && read_refuses_lengths(p1_h4, wrong_packet_length[i], wrong_fields_length[j], LEVELSPRUCE_ANSWER_LENGTH);
    }
    for (j = 0; j < COUNT(wrong_fields_length); j++) {
        fields = fields && read_refuses_lengths(p1_h4, PACKET, wrong_fields_length[j], LEVELSPRUCE_ANSWER_LENGTH);
        order = order && read_refuses_lengths(bad_crc, PACKET, wrong_fields_length[j], LEVELSPRUCE_ANSWER_LENGTH);
    }
    check("reading answers 9 for a wrong length of the packet", h4);
    check("reading answers 9 for a wrong length of the fields", fields);
    check("reading answers 9 for both lengths wrong", both);
    check("reading answers 9 before 5", order);

    lend(&lent, p1_h4, PACKET);
    check("reading answers 9 for NULL with length 0", levelspruce_packet_read(NULL, 0, lent_bytes(&lent), BYTES) == LEVELSPRUCE_ANSWER_LENGTH
                                                          && levelspruce_packet_read(lent_bytes(&lent), PACKET, NULL, 0) == LEVELSPRUCE_ANSWER_LENGTH
                                                          && levelspruce_packet_read(NULL, 0, NULL, 0) == LEVELSPRUCE_ANSWER_LENGTH && untouched(&lent));
}

static void test_read_refuses_crc(void)
{
    uint8_t h4[PACKET];
    int i, j, k, one = 1, two_or_three = 1;
    unsigned changed;
    int wrong = 1;

    for (i = 0; i < 64; i++)
        for (j = i; j < 64; j++)
            for (k = j; k < 64; k++) {
                if (i == j && j != k)
                    continue; /* two changes in one place cancel */
                memcpy(h4, p1_h4, PACKET);
                h4[i / 4] ^= (uint8_t)(0x80 >> i % 4);
                if (j > i)
                    h4[j / 4] ^= (uint8_t)(0x80 >> j % 4);
                if (k > j)
                    h4[k / 4] ^= (uint8_t)(0x80 >> k % 4);
                if (i == k)
                    one = one && read_refuses(h4, LEVELSPRUCE_ANSWER_CRC);
                else
                    two_or_three = two_or_three && read_refuses(h4, LEVELSPRUCE_ANSWER_CRC);
            }
    check("reading answers 5 for each single bit changed in P1", one);
    check("reading answers 5 for each two or three bits changed in P1", two_or_three);

    for (changed = 1; changed < 256; changed++) {
        memcpy(h4, p1_h4, PACKET);
        put_crc(h4, 0x99u ^ changed);
        wrong = wrong && read_refuses(h4, LEVELSPRUCE_ANSWER_CRC);
    }
    check("reading answers 5 for every wrong CRC of P1", wrong);
}

static void test_read_refuses_words(void)
{
    static const uint8_t all_zero[PACKET] = { 0 };
    uint8_t last_bit[PACKET] = { 0 };
    uint8_t h4[PACKET];
    unsigned word, changed;
    int fixed, unassigned = 1, order = 1;

    last_bit[CRC_PLACE - 1] = 0x10;
    put_crc(last_bit, 0x07);
    check("reading answers 7 for P3, 56 zero bits with CRC 00", read_refuses(all_zero, LEVELSPRUCE_ANSWER_FIXED));
    check("reading answers 7 for P4, only the last bit set with CRC 07", read_refuses(last_bit, LEVELSPRUCE_ANSWER_FIXED));

    with_word(h4, LEVELSPRUCE_WORD_FIXED, 0);
    fixed = read_refuses(h4, LEVELSPRUCE_ANSWER_FIXED);
    for (word = 1; word < 16; word++)
        if (!is_assigned(word)) {
            with_word(h4, word, 0);
            unassigned = unassigned && read_refuses(h4, LEVELSPRUCE_ANSWER_UNASSIGNED);
        }
    check("reading answers 7 for FIXED with its CRC right", fixed);
    check("reading answers 6 for every unassigned word with its CRC right", unassigned);

    for (word = 0; word < 16; word++)
        for (changed = 1; changed < 256; changed++) {
            with_word(h4, word, changed);
            order = order && read_refuses(h4, LEVELSPRUCE_ANSWER_CRC);
        }
    check("reading answers 5 before 7 and 6", order);
}

static void test_read_looks_at_high_nibbles(void)
{
    uint8_t h4[PACKET];
    unsigned low;
    int i, held = 1, refused = 1;

    for (low = 0; low < 16; low++)
        for (i = 0; i < PACKET; i++) {
            memcpy(h4, p2_h4, PACKET);
            h4[i] = (uint8_t)((h4[i] & 0xF0u) | low);
            held = held && reads(h4, &p2);
        }
    for (low = 0; low < 16; low++) {
        for (i = 0; i < PACKET; i++)
            h4[i] = (uint8_t)((p2_h4[i] & 0xF0u) | low);
        held = held && reads(h4, &p2);
        with_word(h4, LEVELSPRUCE_WORD_FIXED, 0);
        for (i = 0; i < PACKET; i++)
            h4[i] = (uint8_t)((h4[i] & 0xF0u) | low);
        refused = refused && read_refuses(h4, LEVELSPRUCE_ANSWER_FIXED);
    }
    check("reading looks at the high nibbles only, in a packet that it takes", held);
    check("reading looks at the high nibbles only, in a packet that it refuses", refused);
}

/* Reserved bits and the zeros beside RS-Ack and GID, if the CRC counts them, are handed back and written again. */
static void test_reserved_bits(void)
{
    struct packet p = p2;
    uint8_t h4[PACKET];
    int uncounted = 1, each = 1, two = 1, all;
    size_t i, j;

    for (i = 0; i < RESERVED_BITS; i++) {
        memcpy(h4, p2_h4, PACKET);
        h4[reserved_place[i].place] |= reserved_place[i].bit;
        uncounted = uncounted && read_refuses(h4, LEVELSPRUCE_ANSWER_CRC);
        put_crc(h4, remainder_of(h4));
        p.field[LEVELSPRUCE_FIELD_RESERVED] = 1u << (RESERVED_BITS - 1 - i);
        each = each && reads(h4, &p) && writes(&p, h4);
        for (j = i + 1; j < RESERVED_BITS; j++) {
            p.field[LEVELSPRUCE_FIELD_RESERVED] = 1u << (RESERVED_BITS - 1 - i) | 1u << (RESERVED_BITS - 1 - j);
            by_hand(h4, &p);
            two = two && reads(h4, &p) && writes(&p, h4);
        }
    }
    p.field[LEVELSPRUCE_FIELD_RESERVED] = LEVELSPRUCE_RESERVED_MOST;
    by_hand(h4, &p);
    all = reads(h4, &p) && writes(&p, h4);
    check("each reserved bit alone is read at its place and written there", each);
    check("each two reserved bits are read and written", two);
    check("all 26 reserved bits are read and written", all);
    check("reading answers 5 for reserved bits that the CRC does not count", uncounted);
}

/* Each two and three changed bits in a packet with all reserved bits set are found, as in P1. */
static void test_read_refuses_crc_under_reserved_bits(void)
{
    struct packet p = mixed;
    uint8_t whole[PACKET], h4[PACKET];
    int i, j, k, held = 1;

    p.field[LEVELSPRUCE_FIELD_RESERVED] = LEVELSPRUCE_RESERVED_MOST;
    by_hand(whole, &p);
    for (i = 0; i < 64; i++)
        for (j = i + 1; j < 64; j++)
            for (k = j; k < 64; k++) {
                memcpy(h4, whole, PACKET);
                h4[i / 4] ^= (uint8_t)(0x80 >> i % 4);
                h4[j / 4] ^= (uint8_t)(0x80 >> j % 4);
                if (k > j)
                    h4[k / 4] ^= (uint8_t)(0x80 >> k % 4);
                held = held && read_refuses(h4, LEVELSPRUCE_ANSWER_CRC);
            }
    check("reading answers 5 for each two or three bits changed in a packet with all reserved bits set", held);
}

/* ---- rows of a file */

static uint32_t word_named(const char *name)
{
    static const char *const names[] = { "ADD", "NORM", "EOS", "IDLE", "DNU" };
    size_t i;

    for (i = 0; i < COUNT(names); i++)
        if (strcmp(name, names[i]) == 0)
            return assigned[i];
    return UINT32_MAX;
}

/* Reads 'epoch 0 EOS sq 0 gid 0 mst FF ack 0 reserved 0000000 crc BD : F8 F9 ..'. */
static int parse_row(const char *row, struct packet *p, uint8_t *h4)
{
    unsigned epoch, sq, gid, mst, ack, reserved, crc, byte;
    char word[8];
    int i, at = 0, step;

    if (sscanf(row, "epoch %u %7s sq %u gid %u mst %x ack %u reserved %x crc %x :%n", &epoch, word, &sq, &gid, &mst, &ack, &reserved, &crc, &at) != 8
        || at == 0)
        return 0;
    for (i = 0; i < PACKET; i++, at += step) {
        if (sscanf(row + at, "%x%n", &byte, &step) != 1 || byte > 255)
            return 0;
        h4[i] = (uint8_t)byte;
    }
    p->field[LEVELSPRUCE_FIELD_EPOCH] = epoch;
    p->field[LEVELSPRUCE_FIELD_WORD] = word_named(word);
    p->field[LEVELSPRUCE_FIELD_GID] = gid;
    p->field[LEVELSPRUCE_FIELD_MST] = mst;
    p->field[LEVELSPRUCE_FIELD_RS_ACK] = ack;
    p->field[LEVELSPRUCE_FIELD_SQ] = sq;
    p->field[LEVELSPRUCE_FIELD_RESERVED] = reserved;
    return remainder_of(h4) == crc;
}

static void test_rows(const char *path)
{
    FILE *file = fopen(path, "r");
    char line[256], name[64];
    int rows = 0, understood = 1, written = 1, read = 1;

    while (file && fgets(line, sizeof line, file)) {
        const char *row = strstr(line, "epoch");
        struct packet p;
        uint8_t h4[PACKET];

        if (strncmp(line, "H4 ", 3) != 0)
            continue;
        rows++;
        if (!row || !parse_row(row, &p, h4)) {
            understood = 0;
            continue;
        }
        written = written && writes(&p, h4);
        read = read && reads(h4, &p);
    }
    if (file)
        fclose(file);
    sprintf(name, "the file of packets has 38 rows, and %d were found", rows);
    check(name, rows == 38 && understood);
    check("every row of the file is written", rows > 0 && written);
    check("every row of the file is read", rows > 0 && read);
}

int main(int count, char **words)
{
    if (count != 2) {
        fprintf(stderr, "usage: packet_test PACKETS\n");
        return 2;
    }
    test_examples();
    test_write_takes_all_that_fits();
    test_mst_of_all_shapes();
    test_write_refuses_too_large();
    test_write_refuses_reserved_too_large();
    test_write_refuses_words();
    test_write_refuses_lengths();
    test_read_refuses_lengths();
    test_read_refuses_crc();
    test_read_refuses_words();
    test_read_looks_at_high_nibbles();
    test_reserved_bits();
    test_read_refuses_crc_under_reserved_bits();
    test_rows(words[1]);
    return tally();
}
