/*
 * No call reads or writes outside the bytes that it is lent: each buffer stands at the very start or the very end of a
 * page whose neighbours are shut, so that a touch beside it ends this program before its tally.
 */
#define _DEFAULT_SOURCE /* for mmap's MAP_ANONYMOUS */
#include <levelspruce.h>

#include <string.h>
#include <sys/mman.h>
#include <unistd.h>

#include "check.h"

static const uint8_t p1_h4[LEVELSPRUCE_PACKET_BYTES] = { 0xF8, 0xF9, 0x0A, 0x0B, 0x0C, 0x0D, 0xFE, 0xFF, 0x00, 0x01, 0x52, 0x03, 0x04, 0x05, 0x96, 0x97 };
static const size_t h4_lengths[] = { 0, 1, 15, 16, 17, 31, 32, 33, 64 };
static const size_t fields_lengths[] = { 0, 1, 6, 9, 10, 11, 64 };
static size_t page;

/* The open one of three pages, or NULL. */
static uint8_t *open_page(void)
{
    uint8_t *three = mmap(NULL, 3 * page, PROT_NONE, MAP_PRIVATE | MAP_ANONYMOUS, -1, 0);

    if ((void *)three == MAP_FAILED || mprotect(three + page, page, PROT_READ | PROT_WRITE) != 0)
        return NULL;
    return three + page;
}

/* A buffer at the start of the open page, or at its end. */
static uint8_t *buffer_in(uint8_t *open, size_t length, int at_end)
{
    return at_end ? open + page - length : open;
}

static int write_at_edges(uint8_t *open)
{
    size_t i;
    int at_end, held = 1;

    for (i = 0; i < COUNT(h4_lengths); i++)
        for (at_end = 0; at_end < 2; at_end++) {
            uint8_t expected = h4_lengths[i] == LEVELSPRUCE_PACKET_BYTES ? LEVELSPRUCE_ANSWER_DONE : LEVELSPRUCE_ANSWER_LENGTH;
            uint8_t expected_vc12 = h4_lengths[i] == LEVELSPRUCE_PACKET_BYTES_VC12 ? LEVELSPRUCE_ANSWER_DONE : LEVELSPRUCE_ANSWER_LENGTH;

            held = held
                && levelspruce_packet_write(0, LEVELSPRUCE_WORD_IDLE, 0, 255, 0, 255, 0, buffer_in(open, h4_lengths[i], at_end), h4_lengths[i]) == expected
                && levelspruce_packet_write_fixed(58, 5, buffer_in(open, h4_lengths[i], at_end), h4_lengths[i]) == expected
                && levelspruce_packet_write_vc12(0, LEVELSPRUCE_WORD_IDLE, 0, 255, 0, 63, 0, buffer_in(open, h4_lengths[i], at_end), h4_lengths[i])
                       == expected_vc12;
        }
    return held;
}

static int read_at_edges(uint8_t *open_h4, uint8_t *open_fields)
{
    size_t i, j;
    int at_end, held = 1;

    for (i = 0; i < COUNT(h4_lengths); i++)
        for (j = 0; j < COUNT(fields_lengths); j++)
            for (at_end = 0; at_end < 4; at_end++) {
                uint8_t *h4 = buffer_in(open_h4, h4_lengths[i], at_end % 2);
                uint8_t *fields = buffer_in(open_fields, fields_lengths[j], at_end / 2);
                int right = h4_lengths[i] == LEVELSPRUCE_PACKET_BYTES && fields_lengths[j] == LEVELSPRUCE_FIELDS_BYTES;
                int right_vc12 = h4_lengths[i] == LEVELSPRUCE_PACKET_BYTES_VC12 && fields_lengths[j] == LEVELSPRUCE_FIELDS_BYTES;

                memcpy(h4, p1_h4, h4_lengths[i] < sizeof p1_h4 ? h4_lengths[i] : sizeof p1_h4);
                held = held
                    && levelspruce_packet_read(h4, h4_lengths[i], fields, fields_lengths[j]) == (right ? LEVELSPRUCE_ANSWER_DONE : LEVELSPRUCE_ANSWER_LENGTH);
                /* P1 has another word than FIXED; without that it is a fixed group's packet */
                held = held
                    && levelspruce_packet_read_fixed(h4, h4_lengths[i], fields, fields_lengths[j])
                           == (right ? LEVELSPRUCE_ANSWER_UNASSIGNED : LEVELSPRUCE_ANSWER_LENGTH);
                if (h4_lengths[i] > 10)
                    h4[10] = 0;
                held = held
                    && levelspruce_packet_read_fixed(h4, h4_lengths[i], fields, fields_lengths[j])
                           == (right ? LEVELSPRUCE_ANSWER_DONE : LEVELSPRUCE_ANSWER_LENGTH);
                if (right_vc12)
                    held = held && levelspruce_packet_write_vc12(0, LEVELSPRUCE_WORD_IDLE, 0, 255, 0, 63, 0, h4, h4_lengths[i]) == LEVELSPRUCE_ANSWER_DONE;
                held = held
                    && levelspruce_packet_read_vc12(h4, h4_lengths[i], fields, fields_lengths[j])
                           == (right_vc12 ? LEVELSPRUCE_ANSWER_DONE : LEVELSPRUCE_ANSWER_LENGTH);
            }
    return held;
}

/* A recording of any beginning of this one, mended with the lengths told and with others. */
static int mend_at_edges(uint8_t *open_recording, uint8_t *open_mended, uint8_t *open_notes)
{
    static const char torn[] = "2\t1\t16\n0\t05\t0\tAB\n1\t0\n0\t2f\t0\tAB\n\n0\t07\t1\tAB\n1\t0A\t0\tCD\n1\t0B\t0\tC";
    size_t length, more;
    int at_end, held = 1;

    for (length = 0; length < sizeof torn; length++)
        for (at_end = 0; at_end < 8; at_end++)
            for (more = 0; more < 2; more++) {
                uint8_t *recording = buffer_in(open_recording, length, at_end % 2);
                size_t mended = 3, notes = 5;
                uint8_t told, answer;

                memcpy(recording, torn, length);
                told = levelspruce_mend_lengths(recording, length, &mended, &notes);
                answer = levelspruce_mend(recording, length, buffer_in(open_mended, mended + more, at_end / 2 % 2), mended + more,
                                          buffer_in(open_notes, notes, at_end / 4), notes);
                /* of five bytes the window is 1 */
                held = held
                    && told
                           == (length < 5    ? LEVELSPRUCE_ANSWER_LINE
                               : length == 5 ? LEVELSPRUCE_ANSWER_RANGE
                                             : LEVELSPRUCE_ANSWER_DONE)
                    && answer
                           == (told != LEVELSPRUCE_ANSWER_DONE ? told
                               : more == 0                     ? LEVELSPRUCE_ANSWER_DONE
                                                               : LEVELSPRUCE_ANSWER_LENGTH);
            }
    return held;
}

/* Any beginning of a recording, with what its first line asks for, turn by turn. */
static int replay_at_edges(uint8_t *open_text, uint8_t *open_store, uint8_t *open_out)
{
    static const char recording[] = "2\t1\t16\n0\t05\t0\tAB\n1\t0\n0\t06\t1\tAB\n\n1\t0A\t0\tCD";
    static uint8_t rows[LEVELSPRUCE_RECEIVER_ROWS(LEVELSPRUCE_PORTS_MOST)][LEVELSPRUCE_ROW_BYTES], said[LEVELSPRUCE_REPLAY_ROOM];
    size_t length;
    int at_end, held = 1;

    for (length = 0; length < sizeof recording; length++)
        for (at_end = 0; at_end < 8; at_end++) {
            uint8_t *text = buffer_in(open_text, length, at_end % 2), state[LEVELSPRUCE_REPLAY_BYTES], wants = 0;
            size_t store = 3, out = 5, at = 0, written;

            memcpy(text, recording, length);
            held = held
                && levelspruce_replay_lengths(text, length, &store, &out)
                       == (length < 5    ? LEVELSPRUCE_ANSWER_LINE
                           : length == 5 ? LEVELSPRUCE_ANSWER_RANGE
                                         : LEVELSPRUCE_ANSWER_DONE)
                && levelspruce_replay_begin(state, sizeof state) == LEVELSPRUCE_ANSWER_DONE;
            while (held && !wants)
                held = levelspruce_replay_turn(state, sizeof state, text, length, &at, 1, rows, COUNT(rows), buffer_in(open_store, store, at_end / 2 % 2),
                                               store, buffer_in(open_out, out, at_end / 4), out, said, sizeof said, &written, &wants)
                    == LEVELSPRUCE_ANSWER_DONE;
            held = held && at == length;
        }
    return held;
}

/* What is read out of a receiver and of a sender, and a beginning anew, with the lengths asked for and with others. */
static int see_at_edges(uint8_t *open_state, uint8_t *open_out, uint8_t *open_store)
{
    enum { PORTS = 2, P = 4, W = 64, ROWS = 5 * PORTS + 1, STORE = PORTS * W * (P + 1) };
    size_t less;
    int at_end, held = 1;

    for (at_end = 0; at_end < 8; at_end++)
        for (less = 0; less < 2; less++) {
            uint8_t *state = buffer_in(open_state, ROWS * LEVELSPRUCE_ROW_BYTES, at_end % 2);
            uint8_t(*rows)[LEVELSPRUCE_ROW_BYTES] = (void *)state;
            const uint8_t(*lent)[LEVELSPRUCE_ROW_BYTES] = (const uint8_t(*)[LEVELSPRUCE_ROW_BYTES])rows;
            size_t ports = PORTS - less, two = LEVELSPRUCE_CAUSE_BYTES - less, four = 4 - less;
            int out_end = at_end / 2 % 2;
            uint8_t expected = less == 0 ? LEVELSPRUCE_ANSWER_DONE : LEVELSPRUCE_ANSWER_LENGTH;

            held = held && levelspruce_receiver_start(PORTS, P, W, STORE, rows, ROWS) == LEVELSPRUCE_ANSWER_DONE
                && levelspruce_receiver_seen(lent, ROWS, (void *)buffer_in(open_out, ports * LEVELSPRUCE_SEEN_BYTES, out_end), ports) == expected
                && levelspruce_receiver_cause(lent, ROWS, buffer_in(open_out, two, out_end), two) == expected
                && levelspruce_receiver_heard(lent, ROWS, buffer_in(open_out, four, out_end), four) == expected
                && levelspruce_receiver_behind(lent, ROWS, (void *)buffer_in(open_out, 4 * ports, out_end), ports) == expected
                && levelspruce_receiver_settings(lent, ROWS, (void *)buffer_in(open_out, 4 * four, out_end), four) == expected
                && levelspruce_receiver_anew(rows, ROWS, buffer_in(open_store, STORE - less, at_end / 4), STORE - less) == expected;
            state = buffer_in(open_state, LEVELSPRUCE_SENDER_BYTES, at_end % 2);
            held = held && levelspruce_sender_start(PORTS, 0, state, LEVELSPRUCE_SENDER_BYTES) == LEVELSPRUCE_ANSWER_DONE
                && levelspruce_sender_settings(state, LEVELSPRUCE_SENDER_BYTES, buffer_in(open_out, LEVELSPRUCE_SENDER_SETTINGS_BYTES - less, out_end),
                                               LEVELSPRUCE_SENDER_SETTINGS_BYTES - less)
                       == expected;
        }
    return held;
}

int main(void)
{
    uint8_t *first, *second, *third;

    page = (size_t)sysconf(_SC_PAGESIZE);
    first = open_page();
    second = open_page();
    third = open_page();
    check("pages with shut neighbours are to be had", first != NULL && second != NULL && third != NULL);
    if (first != NULL && second != NULL && third != NULL) {
        check("writing touches nothing beside its buffer", write_at_edges(first));
        check("reading touches nothing beside its buffers", read_at_edges(first, second));
        check("mending touches nothing beside its buffers", mend_at_edges(first, second, third));
        check("a replay touches nothing beside its text, store and output", replay_at_edges(first, second, third));
        check("reading out and beginning anew touch nothing beside their buffers", see_at_edges(first, second, third));
    }
    return tally();
}
