/*
 * Tests of groups of VC-12 over the archive: every answer of both packet calls and of the starts of a kind, the orders of refusals of what a
 * sender's and a card's slots send, the step rule frame by frame, the beginning, the window, numbers and MST, and a link of three slots over
 * unequal delays with one changed bit.
 */
#include <levelspruce.h>

#include <string.h>

#include "check.h"

enum { LENT_MOST = LEVELSPRUCE_CARD_BYTES + 8 };
#include "lent.h"

enum { PACKET = LEVELSPRUCE_PACKET_BYTES_VC12, BYTES = LEVELSPRUCE_FIELDS_BYTES, EPOCH = LEVELSPRUCE_EPOCH_FRAMES_VC12 };
enum { KIND = LEVELSPRUCE_KIND_VC12, P = LEVELSPRUCE_PAYLOAD_VC12, BEGIN = LEVELSPRUCE_VC12_START, EPOCHS = 32 };
enum { ADD = LEVELSPRUCE_WORD_ADD, NORM = LEVELSPRUCE_WORD_NORM, EOS = LEVELSPRUCE_WORD_EOS, IDLE = LEVELSPRUCE_WORD_IDLE, DNU = LEVELSPRUCE_WORD_DNU };
enum { DONE = LEVELSPRUCE_ANSWER_DONE, CRC = LEVELSPRUCE_ANSWER_CRC, OUTSIDE = LEVELSPRUCE_ANSWER_OUTSIDE, STEP = LEVELSPRUCE_ANSWER_STEP };

/* ---- packets */

/* What is asked to be written, in the order of the call. */
struct fields {
    uint32_t epoch, word, gid, mst, rs_ack, sq, reserved;
};

struct known {
    struct fields fields;
    const char *bits;
};

/* worked out by hand */
static const struct known known[] = {
    { { 0, IDLE, 0, 0xFF, 0, 63, 0 }, "00000 111111 0101 0 0000 0 11111111 010" },
    { { 1, EOS, 1, 0xFF, 0, 0, 0 }, "00001 000000 0011 1 0000 0 11111111 111" },
    { { 31, NORM, 1, 0x00, 1, 63, 0 }, "11111 111111 0010 1 0000 1 00000000 000" },
    { { 21, DNU, 1, 0xA5, 0, 37, 11 }, "10101 100101 1111 1 1011 0 10100101 000" },
};

/* Bits as they stand on paper, as bytes; the first with its start. */
static void bytes_of(const char *bits, uint8_t *bytes)
{
    size_t n = 0;

    for (; *bits != 0; bits++)
        if (*bits != ' ')
            bytes[n++] = (uint8_t)(*bits - '0');
    bytes[0] += BEGIN;
}

static uint8_t write_fields(const struct fields *f, uint8_t *bits, size_t length)
{
    return levelspruce_packet_write_vc12(f->epoch, f->word, f->gid, f->mst, f->rs_ack, f->sq, f->reserved, bits, length);
}

static int writes(const struct fields *f, const uint8_t *expected)
{
    struct lent bits;

    lend(&bits, NULL, 0);
    return write_fields(f, lent_bytes(&bits), PACKET) == DONE && stands(&bits, PACKET) && memcmp(lent_bytes(&bits), expected, PACKET) == 0;
}

static int write_refuses(struct fields f, size_t length, uint8_t answer)
{
    struct lent bits;

    lend(&bits, NULL, 0);
    return write_fields(&f, lent_bytes(&bits), length) == answer && untouched(&bits);
}

static int reads(const uint8_t *bytes, const struct fields *f)
{
    struct lent bits, fields;
    uint8_t expected[BYTES] = { 0 };

    expected[LEVELSPRUCE_FIELD_EPOCH] = (uint8_t)f->epoch;
    expected[LEVELSPRUCE_FIELD_WORD] = (uint8_t)f->word;
    expected[LEVELSPRUCE_FIELD_GID] = (uint8_t)f->gid;
    expected[LEVELSPRUCE_FIELD_MST] = (uint8_t)f->mst;
    expected[LEVELSPRUCE_FIELD_RS_ACK] = (uint8_t)f->rs_ack;
    expected[LEVELSPRUCE_FIELD_SQ] = (uint8_t)f->sq;
    expected[LEVELSPRUCE_FIELD_RESERVED + 3] = (uint8_t)f->reserved;
    lend(&bits, bytes, PACKET);
    lend(&fields, NULL, 0);
    return levelspruce_packet_read_vc12(lent_bytes(&bits), PACKET, lent_bytes(&fields), BYTES) == DONE && untouched(&bits) && stands(&fields, BYTES)
        && memcmp(lent_bytes(&fields), expected, BYTES) == 0;
}

static int read_refuses(const uint8_t *bytes, size_t length, size_t fields_length, uint8_t answer)
{
    struct lent bits, fields;

    lend(&bits, bytes, PACKET);
    lend(&fields, NULL, 0);
    return levelspruce_packet_read_vc12(lent_bytes(&bits), length, lent_bytes(&fields), fields_length) == answer && untouched(&bits) && untouched(&fields);
}

static const size_t wrong_packet_length[] = { 0, 1, 16, 31, 33, 64 }, wrong_fields_length[] = { 0, 1, 6, 9, 11, 32 };
static const uint32_t wide[] = { 256, 257, 65536, 0x80000000u, UINT32_MAX };

static void writing(void)
{
    static const uint32_t most[] = { 31, 1, 255, 1, 63, 15 };
    const struct fields good = { 7, NORM, 0, 0, 0, 9, 0 };
    struct fields f;
    uint32_t *const field[] = { &f.epoch, &f.gid, &f.mst, &f.rs_ack, &f.sq, &f.reserved };
    uint8_t bits[PACKET];
    int held = 1, limits = 1, words = 1, length = 1;
    uint32_t word;
    size_t i, j;

    for (i = 0; i < COUNT(known); i++) {
        bytes_of(known[i].bits, bits);
        held = held && writes(&known[i].fields, bits) && reads(bits, &known[i].fields);
    }
    check("four packets worked out by hand are written, the first byte with its start, and read", held);
    /* each field at its limit is written, one above it is refused */
    for (i = 0; i < COUNT(most); i++) {
        f = good;
        *field[i] = most[i];
        limits = limits && write_fields(&f, bits, PACKET) == DONE && reads(bits, &f);
        *field[i] = most[i] + 1;
        limits = limits && write_refuses(f, PACKET, 8);
        for (j = 0; j < COUNT(wide); j++) {
            *field[i] = wide[j];
            limits = limits && write_refuses(f, PACKET, 8);
        }
    }
    check("count 31, SQ 63, MST 255 and reserved 15 are written, one more is 8", limits);
    for (word = 0; word < 300; word++) {
        int assigned = word == ADD || word == NORM || word == EOS || word == IDLE || word == DNU;

        f = good;
        f.word = word;
        words = words && (assigned ? write_fields(&f, bits, PACKET) == DONE && reads(bits, &f) : write_refuses(f, PACKET, 8));
    }
    check("FIXED and every unassigned word are 8", words);
    for (i = 0; i < COUNT(wrong_packet_length); i++) {
        f = good;
        length = length && write_refuses(f, wrong_packet_length[i], 9);
        f.epoch = 32;
        length = length && write_refuses(f, wrong_packet_length[i], 9);
    }
    check("writing answers 9 for a wrong length, before 8", length && levelspruce_packet_write_vc12(32, 0, 2, 256, 2, 64, 16, NULL, 0) == 9);
}

static void reading(void)
{
    const struct fields good = { 7, NORM, 0, 0, 0, 9, 0 }, other = { 7, EOS, 0, 0x80, 0, 9, 0 };
    uint8_t bits[PACKET], hit[PACKET], fields[BYTES];
    int one = 1, two = 1, high = 1, length = 1;
    size_t i, j;

    one = one && write_fields(&good, bits, PACKET) == DONE;
    for (i = 0; i < PACKET; i++) {
        memcpy(hit, bits, PACKET);
        hit[i] ^= 1;
        one = one && read_refuses(hit, PACKET, BYTES, CRC);
        for (j = 0; j < i; j++) {
            hit[j] ^= 1;
            two = two && (levelspruce_packet_read_vc12(hit, PACKET, fields, BYTES) != CRC) == ((i - j) % 7 == 0);
            hit[j] ^= 1;
        }
    }
    check("one changed bit of 32 is 5", one);
    memcpy(hit, bits, PACKET);
    hit[14] ^= 1;
    hit[21] ^= 1;
    check("two pass where they stand 7, 14, 21 or 28 apart: NORM 9 reads as EOS 9 with MST 80", two && reads(hit, &other));
    for (i = 0; i < PACKET; i++)
        hit[i] = bits[i] ^ 0xFE;
    high = reads(hit, &good);
    check("reading looks at the lowest bits only", high);
    memset(hit, 0, PACKET);
    check("all zeros are 7, all ones are 5", read_refuses(hit, PACKET, BYTES, 7) && (memset(hit, 1, PACKET), read_refuses(hit, PACKET, BYTES, 5)));
    /* word 4 and nothing else, under its CRC */
    bytes_of("00000 000000 0100 0 0000 0 00000000 111", hit);
    check("an unassigned word is 6", read_refuses(hit, PACKET, BYTES, 6));
    for (i = 0; i < COUNT(wrong_packet_length); i++)
        length = length && read_refuses(hit, wrong_packet_length[i], BYTES, 9);
    for (i = 0; i < COUNT(wrong_fields_length); i++)
        length = length && read_refuses(hit, PACKET, wrong_fields_length[i], 9) && read_refuses(bits, PACKET, wrong_fields_length[i], 9);
    check("reading answers 9 for a wrong length, before 5, 7 and 6", length && levelspruce_packet_read_vc12(NULL, 0, NULL, 0) == 9);
}

/* ---- starts of senders and cards */

enum { SENDER = LEVELSPRUCE_SENDER_BYTES, CARD = LEVELSPRUCE_CARD_BYTES };

/* One start of a sender, or of a card with both first epochs alike. */
static uint8_t start_as(int card, uint32_t kind, uint32_t count, uint32_t first, uint8_t *state, size_t length)
{
    return card ? levelspruce_card_start_as(kind, count, first, first, state, length) : levelspruce_sender_start_as(kind, count, first, state, length);
}

static uint8_t start_plain(int card, uint32_t count, uint32_t first, uint8_t *state, size_t length)
{
    return card ? levelspruce_card_start(count, first, first, state, length) : levelspruce_sender_start(count, first, state, length);
}

/* Its answer, with just the bytes changed that the answer lets change. A refusal by 4 leaves what a refused start of H4 does. */
static int starts(int card, uint32_t kind, uint32_t count, uint32_t first, size_t length, uint8_t answer)
{
    const size_t whole = card ? CARD : SENDER;
    struct lent state, empty;

    lend(&state, NULL, 0);
    lend(&empty, NULL, 0);
    if (start_as(card, kind, count, first, lent_bytes(&state), length) != answer)
        return 0;
    if (answer == 8 || answer == 9 || length != whole)
        return untouched(&state);
    if (answer == 4)
        return start_plain(card, 0, 0, lent_bytes(&empty), whole) == 4 && memcmp(state.now, empty.now, sizeof state.now) == 0;
    return stands(&state, whole);
}

static void starting_senders(int card)
{
    static const uint32_t kinds[] = { 2, 3, 256, 257, UINT32_MAX }, counts[] = { 0, 65, 256, 257, UINT32_MAX };
    const size_t whole = card ? CARD : SENDER;
    struct lent as, plain;
    int kind = 1, count = 1, first = 1, length = 1, alike = 1;
    uint32_t n;
    size_t i;

    for (i = 0; i < COUNT(kinds); i++)
        kind = kind && starts(card, kinds[i], 3, 0, whole, 4) && starts(card, kinds[i], 3, 999, whole - 1, 4);
    check(card ? "card: kinds 0 and 1 start, 2, 3 and 257 are 4, before 9 and 8, with empty groups of H4"
               : "sender: kinds 0 and 1 start, 2, 3 and 257 are 4, before 9 and 8, with an empty group of H4",
          kind && starts(card, 0, 3, 0, whole, 0) && starts(card, 1, 3, 0, whole, 0));
    for (i = 0; i < COUNT(counts); i++)
        count = count && starts(card, KIND, counts[i], 0, whole, 4) && starts(card, KIND, counts[i], 999, whole + 1, 4);
    check("a count of 0 or above 64 is 4", count && starts(card, KIND, 1, 0, whole, 0) && starts(card, KIND, 64, 0, whole, 0));
    for (i = 0; i < COUNT(wide); i++)
        first = first && starts(card, KIND, 3, wide[i], whole, 8);
    check("a first epoch of 31 starts, 32 is 8; of H4 255 and 256", first && starts(card, KIND, 3, 31, whole, 0) && starts(card, KIND, 3, 32, whole, 8)
                                                                        && starts(card, 0, 3, 255, whole, 0) && starts(card, 0, 3, 256, whole, 8));
    if (card) {
        lend(&as, NULL, 0);
        check("either first epoch is looked at", levelspruce_card_start_as(KIND, 3, 0, 32, lent_bytes(&as), CARD) == 8
                                                     && levelspruce_card_start_as(KIND, 3, 32, 0, lent_bytes(&as), CARD) == 8 && untouched(&as));
    }
    length = starts(card, KIND, 3, 0, 0, 9) && starts(card, KIND, 3, 0, whole - 1, 9) && starts(card, KIND, 3, 0, whole + 1, 9)
          && starts(card, KIND, 3, 32, whole - 1, 9) && start_as(card, KIND, 3, 0, NULL, 0) == 9 && start_as(card, 2, 3, 0, NULL, 0) == 4;
    check("a wrong length is 9, before 8", length);
    for (n = 0; n < 70; n++) {
        lend(&as, NULL, 0);
        lend(&plain, NULL, 0);
        alike = alike && start_as(card, 0, n, n * 5, lent_bytes(&as), whole) == start_plain(card, n, n * 5, lent_bytes(&plain), whole)
             && memcmp(as.now, plain.now, sizeof as.now) == 0;
    }
    check("with kind 0 it is the start without a kind, byte for byte", alike);
}

/* ---- the sender */

static uint8_t sender[SENDER];

static int shown(uint32_t slot, int word, int number)
{
    uint8_t board[LEVELSPRUCE_BOARD_BYTES];

    return levelspruce_sender_board(sender, SENDER, board, sizeof board) == DONE && board[LEVELSPRUCE_BOARD_ROWS + 2 * slot] == word
        && board[LEVELSPRUCE_BOARD_ROWS + 2 * slot + 1] == number;
}

/* So many members, all active, and no wait. */
static int active(uint32_t members)
{
    uint32_t slot, epoch;
    int held = levelspruce_sender_start_as(KIND, members, 0, sender, SENDER) == DONE;

    for (slot = 0; slot < members; slot++)
        held = held && levelspruce_sender_add(sender, SENDER, slot) == DONE;
    for (epoch = 0; epoch < (members + 7) / 8; epoch++)
        held = held && levelspruce_sender_report(sender, SENDER, epoch, 0, 0) == DONE && levelspruce_sender_lapse(sender, SENDER) == DONE;
    return held;
}

static void numbers(void)
{
    static const uint32_t seven[] = { 7, 15, 31, 255 };
    uint8_t bits[PACKET + 1], expected[PACKET], frame[2 * P], member[P + 1];
    struct fields f = { 31, IDLE, 1, 0x5A, 1, 63, 0 };
    struct lent lent;
    int last = 1, held;
    size_t i;

    for (i = 0; i < COUNT(seven); i++)
        last = last && active(64) && shown(63, EOS, 63) && levelspruce_sender_report(sender, SENDER, seven[i], 1, 0) == DONE && shown(63, DNU, 63)
            && shown(62, EOS, 62) && shown(61, NORM, 61);
    check("64 members: MST 01 of epoch 7, and of 15, 31 and 255, makes number 63 DNU, with EOS on 62", last);
    check("a report of epoch 15 speaks of 56 to 63: MST 80 makes number 56 DNU, and 63 stays",
          active(64) && levelspruce_sender_report(sender, SENDER, 15, 0x80, 0) == DONE && shown(56, DNU, 56) && shown(55, NORM, 55) && shown(63, EOS, 63));
    check("MST of epoch 8 speaks of 0 to 7", active(64) && levelspruce_sender_report(sender, SENDER, 8, 0x80, 0) == DONE && shown(0, DNU, 0));
    check("a report's epoch may be any byte, and 256 is 8",
          active(3) && levelspruce_sender_report(sender, SENDER, 256, 0, 0) == 8 && levelspruce_sender_report(sender, SENDER, 255, 0, 0) == DONE);
    held = active(3) && levelspruce_sender_remove(sender, SENDER, 1) == DONE && shown(1, IDLE, 63) && levelspruce_sender_lapse(sender, SENDER) == DONE
        && levelspruce_sender_report(sender, SENDER, 7, 0xFF, 0) == DONE && shown(1, IDLE, 63) && shown(0, NORM, 0) && shown(2, EOS, 1) && shown(3, IDLE, 63)
        && shown(63, IDLE, 63);
    check("a removed slot shows IDLE 63 and so do those past the count, and no report finds it", held);
    held = levelspruce_sender_start_as(KIND, 2, 31, sender, SENDER) == DONE && levelspruce_sender_packet(sender, SENDER, 0, bits, PACKET) == 2
        && levelspruce_sender_start_epoch(sender, SENDER, 1, 0x5A, 1) == DONE && levelspruce_sender_packet(sender, SENDER, 2, bits, 5) == 1
        && levelspruce_sender_packet(sender, SENDER, 0, bits, PACKET - 1) == 9 && levelspruce_sender_packet(sender, SENDER, 0, bits, PACKET + 1) == 9
        && levelspruce_sender_packet(sender, SENDER, 0, bits, LEVELSPRUCE_PACKET_BYTES) == 9
        && levelspruce_sender_packet(sender, SENDER, 0, bits, PACKET) == DONE && write_fields(&f, expected, PACKET) == DONE
        && memcmp(bits, expected, PACKET) == 0;
    f.epoch = 0;
    held = held && levelspruce_sender_start_epoch(sender, SENDER, 1, 0x5A, 1) == DONE && levelspruce_sender_packet(sender, SENDER, 1, bits, PACKET) == DONE
        && write_fields(&f, expected, PACKET) == DONE && memcmp(bits, expected, PACKET) == 0;
    check("packets are 32 bytes in the order 1, 9, 2, and epoch 31 is followed by 0", held);
    held = active(2) && levelspruce_sender_start_epoch(sender, SENDER, 0, 0, 0) == DONE && levelspruce_sender_start_epoch(sender, SENDER, 0, 0, 0) == DONE
        && levelspruce_sender_payload(sender, SENDER, 2, 135, frame, 1, member, 1) == 1
        && levelspruce_sender_payload(sender, SENDER, 0, 135, frame, 270, member, 135) == 4
        && levelspruce_sender_payload(sender, SENDER, 0, 137, frame, 1, member, 137) == 4
        && levelspruce_sender_payload(sender, SENDER, 0, 1, frame, 2, member, 1) == 4
        && levelspruce_sender_payload(sender, SENDER, 0, P, frame, 2 * P - 1, member, P) == 9
        && levelspruce_sender_payload(sender, SENDER, 0, P, frame, 2 * P, member, P + 1) == 9;
    for (i = 0; i < sizeof frame; i++)
        frame[i] = (uint8_t)i;
    held = held && levelspruce_sender_payload(sender, SENDER, 1, P, frame, 2 * P, member, P) == DONE && member[0] == 1 && member[P - 1] == (uint8_t)(2 * P - 1);
    check("payload is 136 bytes, any other P is 4, in the order 1, 4, 9", held);
    check("and before an epoch it is 2, behind 4 and 9", levelspruce_sender_start_as(KIND, 2, 0, sender, SENDER) == DONE
                                                             && levelspruce_sender_payload(sender, SENDER, 0, P, NULL, 0, member, P) == 2
                                                             && levelspruce_sender_payload(sender, SENDER, 0, 135, NULL, 0, member, 1) == 4
                                                             && levelspruce_sender_payload(sender, SENDER, 0, P, NULL, 0, member, 1) == 9);
    /* refused, each of the two leaves its bytes as they were */
    lend(&lent, NULL, 0);
    check("a refused packet and a refused payload change no byte",
          levelspruce_sender_packet(sender, SENDER, 0, lent_bytes(&lent), PACKET) == 2
              && levelspruce_sender_payload(sender, SENDER, 0, 135, NULL, 0, lent_bytes(&lent), 135) == 4
              && levelspruce_sender_payload(sender, SENDER, 0, P, NULL, 0, lent_bytes(&lent), P) == 2 && untouched(&lent));
    check("spread and join keep 1 to 2,340",
          levelspruce_spread(1, 135, frame, 135, member, 135) == DONE && levelspruce_join(1, 135, member, 135, frame, 135) == DONE);
}

/* Of a card: what its groups send, in the orders 1, 14, 9, 2 and 1, 14, 4, 9, 2. */
static void cards(void)
{
    static uint8_t card[CARD];
    const struct fields f = { 31, ADD, 1, 0xFF, 0, 0, 0 };
    uint8_t bits[PACKET + 1], expected[PACKET], member[P + 1], board[LEVELSPRUCE_BOARD_BYTES];
    int held = levelspruce_card_start_as(KIND, 3, 31, 5, card, CARD) == DONE && levelspruce_card_claim(card, CARD, 0, 1) == DONE
            && levelspruce_card_add(card, CARD, 0, 1) == DONE;

    check("card: before an epoch a packet is 1, 14, 9, 2",
          held && levelspruce_card_packet(card, CARD, 2, 0, bits, 5) == 1 && levelspruce_card_packet(card, CARD, 0, 3, bits, 5) == 1
              && levelspruce_card_packet(card, CARD, 1, 1, bits, 5) == 14 && levelspruce_card_packet(card, CARD, 0, 1, bits, LEVELSPRUCE_PACKET_BYTES) == 9
              && levelspruce_card_packet(card, CARD, 0, 1, bits, PACKET + 1) == 9 && levelspruce_card_packet(card, CARD, 0, 1, bits, PACKET) == 2);
    check("card: and a payload 1, 14, 4, 9, 2", levelspruce_card_payload(card, CARD, 0, 3, 135, NULL, 0, member, 1) == 1
                                                    && levelspruce_card_payload(card, CARD, 1, 1, 135, NULL, 0, member, 1) == 14
                                                    && levelspruce_card_payload(card, CARD, 0, 1, 135, NULL, 0, member, 1) == 4
                                                    && levelspruce_card_payload(card, CARD, 0, 1, 137, NULL, 0, member, 1) == 4
                                                    && levelspruce_card_payload(card, CARD, 0, 1, P, NULL, 0, member, P + 1) == 9
                                                    && levelspruce_card_payload(card, CARD, 0, 1, P, NULL, 0, member, P) == 2);
    held = levelspruce_card_start_epoch(card, CARD, 0, 1, 0xFF, 0) == DONE && write_fields(&f, expected, PACKET) == DONE
        && levelspruce_card_packet(card, CARD, 0, 1, bits, PACKET) == DONE && memcmp(bits, expected, PACKET) == 0
        && levelspruce_card_payload(card, CARD, 0, 1, P, NULL, 0, member, P) == DONE && member[0] == 0 && member[P - 1] == 0;
    check("card: its packet is of the first epoch given and of 32 bytes, and a slot that is ADD carries zeros", held);
    check("card: an IDLE slot and one past the count show 63", levelspruce_card_board(card, CARD, 0, board, sizeof board) == DONE
                                                                   && board[LEVELSPRUCE_BOARD_ROWS + 1] == 63 && board[LEVELSPRUCE_BOARD_ROWS + 2 * 3] == IDLE
                                                                   && board[LEVELSPRUCE_BOARD_ROWS + 2 * 3 + 1] == 63
                                                                   && board[LEVELSPRUCE_BOARD_ROWS + 2] == ADD && board[LEVELSPRUCE_BOARD_ROWS + 3] == 0);
}

/* ---- the receiver */

enum { PORTS = 3, W_MOST = LEVELSPRUCE_WINDOW_MOST_VC12, TAGS = 1024 };

static uint8_t state[LEVELSPRUCE_RECEIVER_ROWS(64) + 1][LEVELSPRUCE_ROW_BYTES], store[LEVELSPRUCE_STORE_BYTES(PORTS, P, W_MOST)];
static uint8_t out[LEVELSPRUCE_OUTPUT_BYTES_VC12(PORTS)], report[LEVELSPRUCE_REPORT_BYTES];
static uint32_t count, window; /* of the group that runs */

static uint8_t asks(uint32_t kind, uint32_t ports, uint32_t payload, uint32_t w, size_t more_store, size_t more_rows)
{
    return levelspruce_receiver_start_as(kind, ports, payload, w, LEVELSPRUCE_STORE_BYTES(ports, payload, w) + more_store, NULL, 0, NULL, 0, state,
                                         LEVELSPRUCE_RECEIVER_ROWS(ports) + more_rows);
}

/* A start of three ports with these times, as hold-off and as wait-to-restore, which have to be answered alike. */
static int times(const uint32_t *list, size_t length)
{
    const size_t store_bytes = LEVELSPRUCE_STORE_BYTES(3, P, 64), rows = LEVELSPRUCE_RECEIVER_ROWS(3);
    uint8_t hold_off = levelspruce_receiver_start_as(KIND, 3, P, 64, store_bytes, list, length, NULL, 0, state, rows);
    uint8_t restore = levelspruce_receiver_start_as(KIND, 3, P, 64, store_bytes, NULL, 0, list, length, state, rows);

    return hold_off == restore ? hold_off : -1;
}

static int begins(uint32_t ports, uint32_t w)
{
    count = ports;
    window = w;
    return asks(KIND, ports, P, w, 0, 0) == DONE;
}

static uint8_t hand_payload(uint32_t port, uint32_t failed, uint8_t byte, const uint8_t *payload)
{
    return levelspruce_receiver_frame(state, LEVELSPRUCE_RECEIVER_ROWS(count), port, failed, byte, payload, P, store,
                                      LEVELSPRUCE_STORE_BYTES(count, P, window));
}

static uint8_t hand(uint32_t port, uint8_t byte)
{
    static const uint8_t nothing[P];

    return hand_payload(port, 0, byte, nothing);
}

/* The mark of the next report. */
static int fetch(void)
{
    return levelspruce_receiver_fetch(state, LEVELSPRUCE_RECEIVER_ROWS(count), store, LEVELSPRUCE_STORE_BYTES(count, P, window), out,
                                      LEVELSPRUCE_OUTPUT_BYTES_VC12(count), report, sizeof report)
                == DONE
             ? report[LEVELSPRUCE_REPORT_MARK]
             : -1;
}

static int port_shows(uint32_t port, int which)
{
    uint8_t ports[PORTS][LEVELSPRUCE_PORT_BYTES];

    return levelspruce_receiver_ports((const uint8_t(*)[LEVELSPRUCE_ROW_BYTES])state, LEVELSPRUCE_RECEIVER_ROWS(count), ports, count) == DONE
             ? ports[port][which]
             : -1;
}

static void starting_receivers(void)
{
    static const uint32_t kinds[] = { 3, 257, 256, 258, UINT32_MAX };
    static const uint32_t few[] = { 0, 5, 5000 }, long_one[] = { 5001, 0, 0 };
    static const uint8_t nothing[P];
    uint8_t reply[LEVELSPRUCE_REPLY_BYTES];
    int kind = 1;
    size_t i;

    check("the constants", LEVELSPRUCE_KIND_VC12 == 1 && EPOCH == 32 && PACKET == 32 && BEGIN == 2 && P == 136 && LEVELSPRUCE_WINDOW_LEAST_VC12 == 32
                               && W_MOST == 512 && LEVELSPRUCE_NUMBER_IDLE_VC12 == 63 && LEVELSPRUCE_OUTPUT_BYTES_VC12(3) == 3 * 32 * 136);
    check("W 31 is 4, 32 and 512 start, 513 is 4", asks(KIND, 3, P, 31, 0, 0) == 4 && asks(KIND, 3, P, 32, 0, 0) == 0 && asks(KIND, 3, P, 512, 0, 0) == 0
                                                       && asks(KIND, 3, P, 513, 0, 0) == 4 && asks(0, 3, P, 16, 0, 0) == 0 && asks(0, 3, P, 2048, 0, 0) == 0);
    check("P 135 is 4, 136 starts, 137 is 4; of H4 all start", asks(KIND, 3, 135, 64, 0, 0) == 4 && asks(KIND, 3, 136, 64, 0, 0) == 0
                                                                   && asks(KIND, 3, 137, 64, 0, 0) == 4 && asks(0, 3, 135, 64, 0, 0) == 0
                                                                   && asks(0, 3, 137, 64, 0, 0) == 0);
    for (i = 0; i < COUNT(kinds); i++)
        kind = kind && asks(kinds[i], 3, P, 64, 0, 0) == 4 && asks(kinds[i], 3, P, 64, 1, 1) == 4;
    check("the kinds 0, 1 and 2 start, 3 and 257 are 4, before 9",
          kind && asks(0, 3, P, 64, 0, 0) == 0 && asks(1, 3, P, 64, 0, 0) == 0 && asks(2, 3, P, 64, 0, 0) == 0);
    check("ports 0 and 65 are 4, 64 start; 9 for the store or the rows", asks(KIND, 0, P, 64, 0, 0) == 4 && asks(KIND, 65, P, 64, 0, 0) == 4
                                                                             && asks(KIND, 64, P, 64, 0, 0) == 0 && asks(KIND, 3, P, 64, 1, 0) == 9
                                                                             && asks(KIND, 3, P, 64, 0, 1) == 9 && asks(KIND, 3, 135, 64, 1, 1) == 4);
    check("times: a list is empty or one for each port, else 9, and a count above 5,000 is 4 before it",
          times(NULL, 0) == 0 && times(few, 3) == 0 && times(few, 2) == 9 && times(long_one, 3) == 4 && times(long_one, 2) == 4);
    check("a refused start leaves an empty group",
          asks(KIND, 3, P, 31, 0, 0) == 4 && levelspruce_receiver_frame(state, LEVELSPRUCE_RECEIVER_ROWS(3), 0, 0, BEGIN, nothing, P, store, 0) == 1
              && levelspruce_receiver_ports((const uint8_t(*)[LEVELSPRUCE_ROW_BYTES])state, 4, NULL, 0) == 0);
    check("after its start all ports are IDLE with number 63 and no word, and MST is FF",
          begins(3, 64) && port_shows(2, LEVELSPRUCE_PORT_STATE) == LEVELSPRUCE_PORT_IDLE && port_shows(2, LEVELSPRUCE_PORT_NUMBER) == 63
              && port_shows(2, LEVELSPRUCE_PORT_WORD) == 255
              && levelspruce_receiver_reply((const uint8_t(*)[LEVELSPRUCE_ROW_BYTES])state, LEVELSPRUCE_RECEIVER_ROWS(3), 9, reply, sizeof reply) == DONE
              && reply[0] == 0xFF && reply[1] == 0);
    check("a frame is 1, then 9, and a fetch is 9 for less than ports x 32 x 136 bytes",
          hand(3, BEGIN) == 1
              && levelspruce_receiver_frame(state, LEVELSPRUCE_RECEIVER_ROWS(3), 0, 0, BEGIN, nothing, 135, store, LEVELSPRUCE_STORE_BYTES(3, P, 64)) == 9
              && levelspruce_receiver_frame(state, LEVELSPRUCE_RECEIVER_ROWS(3), 0, 0, BEGIN, nothing, P, store, LEVELSPRUCE_STORE_BYTES(3, P, 64) - 1) == 9
              && levelspruce_receiver_fetch(state, LEVELSPRUCE_RECEIVER_ROWS(3), store, LEVELSPRUCE_STORE_BYTES(3, P, 64), out,
                                            LEVELSPRUCE_OUTPUT_BYTES_VC12(3) - 1, report, sizeof report)
                     == 9
              && fetch() == LEVELSPRUCE_MARK_NONE);
}

/* ---- step, frame by frame, of a group of one port */

/* An IDLE packet of an epoch. */
static void idle(uint32_t epoch, uint8_t *bits)
{
    const struct fields f = { epoch % EPOCHS, IDLE, 0, 0xFF, 0, 63, 0 };

    if (write_fields(&f, bits, PACKET) != DONE)
        check("a packet is written", 0);
}

static uint8_t run[6 * PACKET];
static size_t length;

/* Appends frames of an epoch's packet to the run. */
static void append(uint32_t epoch, size_t frames)
{
    uint8_t bits[PACKET];

    idle(epoch, bits);
    memcpy(run + length, bits, frames);
    length += frames;
}

/* Whether the run's answers are these many 12, then 0, then 12 and so on by turns. */
static int answered(const size_t *turns, size_t n)
{
    size_t i, k, at = 0;
    int held = begins(1, 32);

    for (i = 0; i < n; i++)
        for (k = 0; k < turns[i]; k++, at++) {
            held = held && at < length && hand(0, run[at]) == (i % 2 ? DONE : STEP);
            while (fetch() > LEVELSPRUCE_MARK_NONE)
                ;
        }
    return held && at == length;
}

#define ANSWERED(...) answered((const size_t[]){ __VA_ARGS__ }, COUNT(((const size_t[]){ __VA_ARGS__ })))

static void stepping(void)
{
    size_t i;
    int held;

    length = 0;
    for (i = 0; i < 9; i++)
        run[length++] = (uint8_t)(i % 2);
    append(5, 32), append(6, 32), append(7, 32);
    check("nine frames with no start, then packets 5, 6, 7: 72 times 12, then 0", ANSWERED(72, 33));
    length = 0;
    append(5, 32), append(6, 32), append(9, 32), append(10, 32);
    check("packets 5, 6 and 9: 12 from the fifth bit of 9 on, and with 10 in step again", ANSWERED(63, 1 + 4, 28 + 31, 1));
    length = 0;
    append(5, 32), append(7, 32), append(8, 32);
    check("packets 5, 7 and 8: in step with the 96th frame", ANSWERED(95, 1));
    length = 0;
    append(5, 32), append(4, 32), append(6, 32);
    check("packets 5, 4 and 6: not", ANSWERED(96));
    length = 0;
    append(30, 32), append(31, 32), append(0, 32), append(1, 32);
    check("31 then 0 keeps step", ANSWERED(63, 65));
    length = 0;
    append(5, 32), append(6, 32), append(7, 9), append(7, 32), append(8, 32);
    check("a start at place 9 of the third packet: 12, and 0 at the 64th frame from it", ANSWERED(63, 10, 63, 1));
    length = 0;
    append(5, 32), append(6, 32), append(7, 32), append(8, 32), append(9, 32);
    run[64] -= BEGIN;
    check("a start left out: 12 to the end of two packets from the next start", ANSWERED(63, 1, 32 + 63, 1));
    length = 0;
    append(5, 32), append(6, 32), append(7, 32);
    for (i = 0; i < length; i++)
        run[i] |= 0xFC;
    check("other bits of a byte are not looked at", ANSWERED(63, 33));
    run[70] ^= 1;
    check("nor bits past the count: a damaged packet keeps step", ANSWERED(63, 33));
    /* flagged as a start: no run begins with it */
    length = 0;
    append(5, 32), append(6, 32), append(7, 32);
    held = begins(1, 32);
    for (i = 0; i < 64; i++)
        held = held && hand(0, run[i]) == (i < 63 ? STEP : DONE);
    held = held && hand_payload(0, 1, run[64], out) == 10 && port_shows(0, LEVELSPRUCE_PORT_STEP) == 0;
    for (i = 65; i < 96; i++)
        held = held && hand(0, run[i]) == STEP;
    check("a flagged frame ends the run, and what it says of a start is not looked at", held && port_shows(0, LEVELSPRUCE_PORT_STEP) == 0);
}

/* ---- beginning and window */

/* Hands a port what brings it into step, up to the frame with this tag. */
static uint8_t bring_to(uint32_t port, uint32_t latest)
{
    uint32_t tag = (latest + TAGS - 63) / EPOCH * EPOCH;
    uint8_t bits[PACKET], answer = STEP;

    for (; tag <= latest + TAGS; tag++) {
        idle(tag / EPOCH, bits);
        answer = hand(port, bits[tag % EPOCH]);
    }
    return answer;
}

/* Whether receiving has begun with the last frame of port 1: its latest tag is this one, and port 0's the other. */
static int begun(uint32_t w, uint32_t last, uint32_t other)
{
    return begins(2, w) && bring_to(0, other % TAGS) == DONE && bring_to(1, last) == DONE && port_shows(1, LEVELSPRUCE_PORT_READABLE) == 1;
}

static void beginning(void)
{
    static const uint32_t windows[] = { 32, 33, 64, 100, 512 }, lasts[] = { 31, 511, 991, 1023 };
    uint8_t bits[PACKET], kept[LEVELSPRUCE_RECEIVER_ROWS(2)][LEVELSPRUCE_ROW_BYTES];
    int held = 1, joined = 0;
    uint32_t tag;
    size_t i, j;

    for (i = 0; i < COUNT(windows); i++)
        for (j = 0; j < COUNT(lasts); j++) {
            uint32_t w = windows[i], last = lasts[j];

            held = held && begun(w, last, last + TAGS + 32 - w) && begun(w, last, last + w - 32) && !begun(w, last, last + TAGS + 31 - w)
                && !begun(w, last, last + w - 31);
        }
    check("latest tags W-32 apart begin, W-31 apart do not, over tag 1,023 too", held);

    /* both at the end of 13, which is gathered; port 0 stands in the count of 15, and W is 34 */
    held = begun(34, 12 * 32 + 31, 12 * 32 + 31);
    for (tag = 13 * 32; tag < 15 * 32 + 2; tag++) {
        idle(tag / EPOCH, bits);
        if (tag < 14 * 32)
            held = held && hand(1, bits[tag % EPOCH]) == DONE;
        held = held && hand(0, bits[tag % EPOCH]) == DONE;
    }
    memcpy(kept, state, sizeof kept);
    held = held && hand(0, bits[2]) == OUTSIDE && hand(0, bits[2]) == OUTSIDE && memcmp(kept, state, sizeof kept) == 0;
    for (tag = 14 * 32; tag < 15 * 32; tag++) {
        idle(tag / EPOCH, bits);
        held = held && hand(1, bits[tag % EPOCH]) == DONE;
    }
    idle(15, bits);
    held = held && fetch() == LEVELSPRUCE_MARK_SURE && report[LEVELSPRUCE_REPORT_EPOCH] == 14;
    for (i = 2; i < EPOCH; i++)
        held = held && hand(0, bits[i]) == DONE;
    check("11 leaves all as it is, the bits of the count too: the frame handed again is judged as the first time", held);

    /* port 1 is flagged while receiving begins, and comes up 48 frames ahead of port 0 */
    held = begins(2, 64) && hand_payload(1, 1, 0, out) == 10;
    for (tag = 160; tag < 160 + 3 * TAGS; tag++) {
        idle(tag / EPOCH, bits);
        held = held && (hand(0, bits[tag % EPOCH]) == (tag < 160 + 63 ? STEP : DONE));
        idle((tag + 48) / EPOCH, bits);
        if (tag >= 300)
            (void)!hand(1, bits[(tag + 48) % EPOCH]);
        while (fetch() > LEVELSPRUCE_MARK_NONE)
            ;
        joined = joined || port_shows(1, LEVELSPRUCE_PORT_JOINED) == 1;
    }
    check("W 64, and a port 48 frames ahead is in step and never joins", held && !joined && port_shows(1, LEVELSPRUCE_PORT_STEP) == 1);
}

/* ---- a link of three slots. Frame n of the stream is sent at time n, and is frame n mod 32 of the epoch FIRST + n div 32. */

enum { FIRST = 27, LAST = 14, W = 64, MOST = PORTS * P };

static uint8_t sent[LAST][PORTS][PACKET]; /* the packets of each epoch */
static uint32_t carries[LAST];            /* X of each epoch */

static uint8_t client(uint32_t epoch, uint32_t k, uint32_t i)
{
    return (uint8_t)(epoch * 37 + k * 11 + i * 5 + i / 256);
}

/* What the sender's slots send: three members, active by the report of epoch 2 and carrying from epoch 3 on. */
static int send_all(uint8_t payload[LAST][EPOCH][PORTS][P])
{
    static uint8_t frame[MOST];
    uint8_t ranks[LEVELSPRUCE_RANKS_BYTES];
    uint32_t epoch, slot, k, i;
    int held = levelspruce_sender_start_as(KIND, PORTS, FIRST, sender, SENDER) == DONE;

    for (epoch = 0; epoch < LAST; epoch++) {
        for (slot = 0; slot < PORTS && epoch == 1; slot++)
            held = held && levelspruce_sender_add(sender, SENDER, slot) == DONE;
        if (epoch == 2)
            held = held && levelspruce_sender_report(sender, SENDER, 8, 0, 0) == DONE;
        held = held && levelspruce_sender_start_epoch(sender, SENDER, 1, 0xFF, 0) == DONE
            && levelspruce_sender_ranks(sender, SENDER, ranks, sizeof ranks) == DONE && ranks[LEVELSPRUCE_RANKS_EPOCH] == (FIRST + epoch) % EPOCHS;
        carries[epoch] = ranks[LEVELSPRUCE_RANKS_X];
        for (slot = 0; slot < PORTS; slot++)
            held = held && levelspruce_sender_packet(sender, SENDER, slot, sent[epoch][slot], PACKET) == DONE;
        for (k = 0; k < EPOCH; k++) {
            for (i = 0; i < carries[epoch] * P; i++)
                frame[i] = client(epoch, k, i);
            for (slot = 0; slot < PORTS; slot++)
                held = held && levelspruce_sender_payload(sender, SENDER, slot, P, frame, carries[epoch] * P, payload[epoch][k][slot], P) == DONE;
        }
    }
    return held && carries[2] == 0 && carries[3] == 3;
}

static int are_clients(uint32_t epoch)
{
    uint32_t k, i;

    for (k = 0; k < EPOCH; k++)
        for (i = 0; i < MOST; i++)
            if (out[k * MOST + i] != client(epoch, k, i))
                return 0;
    return 1;
}

/* With a bit changed in the packet that one slot sends in one epoch, or none: every report from the first on, which is of the epoch after the
 * one that is gathered. */
static int arrives(uint8_t payload[LAST][EPOCH][PORTS][P], const uint32_t *delay, int hit_slot, uint32_t hit_epoch, uint32_t place)
{
    /* the slowest is in step with the frame of time 63 and its delay, and the foremost stands in epoch 1 or 2 then */
    uint32_t slowest = delay[0] > delay[2] ? delay[0] : delay[2], time, slot, next = (63 + slowest) / EPOCH + 2;
    int held = begins(PORTS, W);

    for (time = 0; time < LAST * EPOCH + W; time++) {
        for (slot = 0; slot < PORTS; slot++) {
            uint32_t n = time - delay[slot];
            uint8_t byte;

            if (time < delay[slot] || n >= LAST * EPOCH)
                continue;
            byte = sent[n / EPOCH][slot][n % EPOCH];
            if ((int)slot == hit_slot && n == hit_epoch * EPOCH + place)
                byte ^= 1;
            held = held && hand_payload(slot, 0, byte, payload[n / EPOCH][n % EPOCH][slot]) == (n < 63 ? STEP : DONE);
        }
        while (fetch() > LEVELSPRUCE_MARK_NONE) {
            int is_held = hit_slot >= 0 && next == hit_epoch + 1;
            uint32_t bytes = (uint32_t)report[LEVELSPRUCE_REPORT_COUNT + 2] << 8 | report[LEVELSPRUCE_REPORT_COUNT + 3];

            held = held && next < LAST && report[LEVELSPRUCE_REPORT_EPOCH] == (FIRST + next) % EPOCHS;
            if (is_held)
                held = held && report[LEVELSPRUCE_REPORT_MARK] == LEVELSPRUCE_MARK_HELD && bytes == 0
                    && report[LEVELSPRUCE_REPORT_CAUSE] == LEVELSPRUCE_CAUSE_REFUSED;
            else
                held = held && report[LEVELSPRUCE_REPORT_MARK] == LEVELSPRUCE_MARK_SURE && report[LEVELSPRUCE_REPORT_X] == 3
                    && report[LEVELSPRUCE_REPORT_CAUSE] == LEVELSPRUCE_CAUSE_NONE && bytes == EPOCH * MOST && are_clients(next);
            next++;
        }
    }
    return held && next == LAST;
}

static void linking(void)
{
    static uint8_t payload[LAST][EPOCH][PORTS][P];
    static const uint32_t delays[][PORTS] = { { 0, 0, 0 }, { 32, 0, 17 }, { 0, 31, 32 } };
    uint8_t reply[LEVELSPRUCE_REPLY_BYTES];
    int held = send_all(payload), hits = 1, numbered = 1;
    uint32_t place, slot;
    size_t i;

    for (i = 0; i < COUNT(delays); i++)
        held = held && arrives(payload, delays[i], -1, 0, 0);
    check("three slots over delays up to W-32: every report sure with the client's bytes", held);
    for (slot = 0; slot < PORTS; slot++)
        numbered = numbered && port_shows(slot, LEVELSPRUCE_PORT_STATE) == LEVELSPRUCE_PORT_OK && port_shows(slot, LEVELSPRUCE_PORT_NUMBER) == (int)slot;
    numbered = numbered
            && levelspruce_receiver_reply((const uint8_t(*)[LEVELSPRUCE_ROW_BYTES])state, LEVELSPRUCE_RECEIVER_ROWS(PORTS), 16, reply, sizeof reply) == DONE
            && reply[LEVELSPRUCE_REPLY_MST] == 0x1F;
    check("each is OK under its number, and the reply of epochs 0, 8, 16 and 24 says so", numbered);
    for (place = 5; place < PACKET; place++)
        hits = hits && arrives(payload, delays[1], (int)(place % PORTS), 7, place);
    check("one changed bit outside the count, wherever: the epoch that the packet rules is held, and no other", hits);
}

int main(void)
{
    writing();
    reading();
    starting_senders(0);
    starting_senders(1);
    numbers();
    cards();
    starting_receivers();
    stepping();
    beginning();
    linking();
    return tally();
}
