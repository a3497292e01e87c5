/* How much stack the calls take: each group of them runs in a thread whose stack is painted before, and what is no longer
 * painted afterwards was used. docs/MANUAL.md has the number. */
#define _POSIX_C_SOURCE 200809L
#include <levelspruce.h>

#include <pthread.h>
#include <stdlib.h>
#include <string.h>

#include "check.h"

enum { STACK = 1 << 20, PAINT = 0xA5, PORTS = LEVELSPRUCE_PORTS_MOST, P = LEVELSPRUCE_PAYLOAD_MOST, W = 64 };
enum { CARD = 7680, DESK = 8192, REPLAY = 10240 }; /* what a call on a card may take, one at a desk, and one that replays, which calls the receiver */

static uint8_t card[LEVELSPRUCE_CARD_BYTES], owned[LEVELSPRUCE_OWNED_BYTES];
static uint8_t sender[LEVELSPRUCE_SENDER_BYTES], receiver[LEVELSPRUCE_RECEIVER_ROWS(PORTS)][LEVELSPRUCE_ROW_BYTES];
static uint8_t h4[LEVELSPRUCE_PACKET_BYTES], bits[LEVELSPRUCE_PACKET_BYTES_VC12], frame[PORTS * P], member[PORTS * P], ports[PORTS][LEVELSPRUCE_PORT_BYTES];
static uint8_t board[LEVELSPRUCE_BOARD_BYTES], list[LEVELSPRUCE_CHANGES_BYTES], ranks[LEVELSPRUCE_RANKS_BYTES], reply[LEVELSPRUCE_REPLY_BYTES];
static uint8_t settings[LEVELSPRUCE_SENDER_SETTINGS_BYTES];
static uint8_t seen[PORTS][LEVELSPRUCE_SEEN_BYTES], cause[LEVELSPRUCE_CAUSE_BYTES], heard[LEVELSPRUCE_HEARD_BYTES];
static uint8_t fields[LEVELSPRUCE_FIELDS_BYTES], report[LEVELSPRUCE_REPORT_BYTES];
static uint8_t store[LEVELSPRUCE_STORE_BYTES(PORTS, P, W)], out[LEVELSPRUCE_OUTPUT_BYTES(PORTS, P)];
static unsigned answers; /* all of them, so that none is left out */
static int reported;

static void nothing(void)
{
}

static void packets(void)
{
    answers |= levelspruce_packet_write(7, LEVELSPRUCE_WORD_NORM, 1, 0x5A, 1, 9, 0x155AA55, h4, sizeof h4);
    answers |= levelspruce_packet_read(h4, sizeof h4, fields, sizeof fields);
    answers |= levelspruce_packet_write_fixed(58, 5, h4, sizeof h4);
    answers |= levelspruce_packet_read_fixed(h4, sizeof h4, fields, sizeof fields);
    answers |= levelspruce_packet_write_vc12(7, LEVELSPRUCE_WORD_NORM, 1, 0x5A, 1, 9, 5, bits, sizeof bits);
    answers |= levelspruce_packet_read_vc12(bits, sizeof bits, fields, sizeof fields);
}

static void payloads(void)
{
    answers |= levelspruce_spread(PORTS, P, frame, sizeof frame, member, sizeof member);
    answers |= levelspruce_join(PORTS, P, member, sizeof member, frame, sizeof frame);
}

/* 64 members that become active and are removed, with all that is read of them. */
static void sending_as(uint32_t kind, uint32_t p, uint8_t *packet, size_t packet_bytes)
{
    uint32_t slot, epoch;

    answers |= levelspruce_sender_start_as(kind, PORTS, 0, sender, sizeof sender);
    for (slot = 0; slot < PORTS; slot++)
        answers |= levelspruce_sender_add(sender, sizeof sender, slot);
    for (epoch = 0; epoch < 40; epoch++) {
        answers |= levelspruce_sender_report(sender, sizeof sender, epoch, 0, epoch & 1);
        answers |= levelspruce_sender_start_epoch(sender, sizeof sender, 1, 0, 0);
    }
    answers |= levelspruce_sender_board(sender, sizeof sender, board, sizeof board);
    answers |= levelspruce_sender_board_going(sender, sizeof sender, board, sizeof board);
    answers |= levelspruce_sender_changes(sender, sizeof sender, board, sizeof board, list, sizeof list);
    answers |= levelspruce_sender_ranks(sender, sizeof sender, ranks, sizeof ranks);
    answers |= levelspruce_sender_settings(sender, sizeof sender, settings, sizeof settings);
    answers |= levelspruce_sender_packet(sender, sizeof sender, 3, packet, packet_bytes);
    answers |= levelspruce_sender_payload(sender, sizeof sender, 3, p, frame, (size_t)ranks[LEVELSPRUCE_RANKS_X] * p, member, p);
    while (board[LEVELSPRUCE_BOARD_WAIT]) {
        answers |= levelspruce_sender_lapse(sender, sizeof sender);
        answers |= levelspruce_sender_board(sender, sizeof sender, board, sizeof board);
    }
    answers |= levelspruce_sender_remove(sender, sizeof sender, 5);
}

static void sending(void)
{
    answers |= levelspruce_sender_start(PORTS, 0, sender, sizeof sender);
    sending_as(LEVELSPRUCE_KIND_H4, P, h4, sizeof h4);
}

static void sending_vc12(void)
{
    answers |= levelspruce_card_start_as(LEVELSPRUCE_KIND_VC12, PORTS, 0, 31, card, sizeof card);
    sending_as(LEVELSPRUCE_KIND_VC12, LEVELSPRUCE_PAYLOAD_VC12, bits, sizeof bits);
}

/* 64 members of one of two groups on a card, with all that is read of them. */
static void sharing(void)
{
    static const uint32_t order[][LEVELSPRUCE_COMMAND_NUMBERS] = {
        { LEVELSPRUCE_COMMAND_CLAIM, 0, 5 }, { LEVELSPRUCE_COMMAND_ADD, 0, 5 }, { LEVELSPRUCE_COMMAND_REMOVE, 0, 5 }, { LEVELSPRUCE_COMMAND_RELEASE, 0, 5 }
    };
    uint8_t numbers[COUNT(order)];
    uint32_t slot, epoch;

    answers |= levelspruce_card_start(PORTS, 0, 0, card, sizeof card);
    for (slot = 0; slot < PORTS; slot++) {
        answers |= levelspruce_card_claim(card, sizeof card, 1, slot);
        answers |= levelspruce_card_add(card, sizeof card, 1, slot);
    }
    for (epoch = 0; epoch < 40; epoch++) {
        answers |= levelspruce_card_report(card, sizeof card, 1, epoch, 0, epoch & 1);
        answers |= levelspruce_card_start_epoch(card, sizeof card, 1, 1, 0, 0);
    }
    answers |= levelspruce_card_board(card, sizeof card, 1, board, sizeof board);
    answers |= levelspruce_card_board_going(card, sizeof card, 1, board, sizeof board);
    answers |= levelspruce_card_changes(card, sizeof card, 1, board, sizeof board, list, sizeof list);
    answers |= levelspruce_card_ranks(card, sizeof card, 1, ranks, sizeof ranks);
    answers |= levelspruce_card_owned(card, sizeof card, 1, owned, sizeof owned);
    answers |= levelspruce_card_packet(card, sizeof card, 1, 3, h4, sizeof h4);
    answers |= levelspruce_card_payload(card, sizeof card, 1, 3, P, frame, (size_t)ranks[LEVELSPRUCE_RANKS_X] * P, member, P);
    while (board[LEVELSPRUCE_BOARD_WAIT]) {
        answers |= levelspruce_card_lapse(card, sizeof card, 1);
        answers |= levelspruce_card_board(card, sizeof card, 1, board, sizeof board);
    }
    answers |= levelspruce_card_remove(card, sizeof card, 1, 5);
    answers |= levelspruce_card_release(card, sizeof card, 1, 5);
    answers |= levelspruce_card_order(card, sizeof card, order, COUNT(order), numbers, sizeof numbers);
    answers |= numbers[0] | numbers[1] | numbers[2] | numbers[3];
}

static void write_packet(uint32_t kind, uint32_t epoch, uint32_t port)
{
    if (kind == LEVELSPRUCE_KIND_VC12)
        answers |= levelspruce_packet_write_vc12(epoch, port + 1 < PORTS ? LEVELSPRUCE_WORD_NORM : LEVELSPRUCE_WORD_EOS, 0, 0, 0, port, 0, bits, sizeof bits);
    else if (kind == LEVELSPRUCE_KIND_FIXED)
        answers |= levelspruce_packet_write_fixed(epoch, port, h4, sizeof h4);
    else
        answers |= levelspruce_packet_write(epoch, port + 1 < PORTS ? LEVELSPRUCE_WORD_NORM : LEVELSPRUCE_WORD_EOS, 0, 0, 0, port, 0, h4, sizeof h4);
}

/* 64 ports that come into step, carry bytes and are reported, one that fails and is held off, and what is read of them. */
static void receiving_as(uint32_t kind)
{
    static uint32_t times[PORTS];
    const int vc12 = kind == LEVELSPRUCE_KIND_VC12;
    const uint32_t epoch = vc12 ? LEVELSPRUCE_EPOCH_FRAMES_VC12 : LEVELSPRUCE_EPOCH_FRAMES, p = vc12 ? LEVELSPRUCE_PAYLOAD_VC12 : P;
    const size_t stored = LEVELSPRUCE_STORE_BYTES(PORTS, p, W);
    uint32_t port, n;

    for (port = 0; port < PORTS; port++)
        times[port] = LEVELSPRUCE_TIMER_MOST;
    answers |= levelspruce_receiver_start_as(kind, PORTS, p, W, stored, times, PORTS, times, PORTS, receiver, LEVELSPRUCE_RECEIVER_ROWS(PORTS));
    for (n = 0; n < 10 * epoch; n++)
        for (port = 0; port < PORTS; port++) {
            uint8_t answer;

            write_packet(kind, n / epoch, port);
            answer = levelspruce_receiver_frame(receiver, LEVELSPRUCE_RECEIVER_ROWS(PORTS), port, n > 10 * epoch - 10 && port == 1,
                                                (vc12 ? bits : h4)[n % epoch], member, p, store, stored);
            if (answer != LEVELSPRUCE_ANSWER_STEP && answer != LEVELSPRUCE_ANSWER_FAILED)
                answers |= answer;
            answers |= levelspruce_receiver_fetch(receiver, LEVELSPRUCE_RECEIVER_ROWS(PORTS), store, stored, out, sizeof out, report, sizeof report);
            reported += report[LEVELSPRUCE_REPORT_MARK] == LEVELSPRUCE_MARK_SURE && report[LEVELSPRUCE_REPORT_X] == PORTS;
        }
    answers |= levelspruce_receiver_ports((const uint8_t(*)[LEVELSPRUCE_ROW_BYTES])receiver, LEVELSPRUCE_RECEIVER_ROWS(PORTS), ports, PORTS);
    answers |= levelspruce_receiver_reply((const uint8_t(*)[LEVELSPRUCE_ROW_BYTES])receiver, LEVELSPRUCE_RECEIVER_ROWS(PORTS), 0, reply, sizeof reply);
    answers |= levelspruce_receiver_seen((const uint8_t(*)[LEVELSPRUCE_ROW_BYTES])receiver, LEVELSPRUCE_RECEIVER_ROWS(PORTS), seen, PORTS);
    answers |= levelspruce_receiver_cause((const uint8_t(*)[LEVELSPRUCE_ROW_BYTES])receiver, LEVELSPRUCE_RECEIVER_ROWS(PORTS), cause, sizeof cause);
    answers |= levelspruce_receiver_heard((const uint8_t(*)[LEVELSPRUCE_ROW_BYTES])receiver, LEVELSPRUCE_RECEIVER_ROWS(PORTS), heard, sizeof heard);
    answers |= levelspruce_receiver_behind((const uint8_t(*)[LEVELSPRUCE_ROW_BYTES])receiver, LEVELSPRUCE_RECEIVER_ROWS(PORTS), times, PORTS);
    answers |= levelspruce_receiver_settings((const uint8_t(*)[LEVELSPRUCE_ROW_BYTES])receiver, LEVELSPRUCE_RECEIVER_ROWS(PORTS), times, LEVELSPRUCE_SETTINGS);
    answers |= levelspruce_receiver_anew(receiver, LEVELSPRUCE_RECEIVER_ROWS(PORTS), store, stored);
}

static void receiving(void)
{
    receiving_as(LEVELSPRUCE_KIND_H4);
}

static void receiving_fixed(void)
{
    receiving_as(LEVELSPRUCE_KIND_FIXED);
}

static void receiving_vc12(void)
{
    receiving_as(LEVELSPRUCE_KIND_VC12);
}

/* 64 slots that all change, told and applied. */
static void telling(void)
{
    static uint8_t after[LEVELSPRUCE_BOARD_BYTES], changes[LEVELSPRUCE_CHANGES_BYTES], text[LEVELSPRUCE_SPEECH_BYTES];
    size_t written, i;

    memset(board, LEVELSPRUCE_WORD_NORM, sizeof board);
    memset(after, LEVELSPRUCE_WORD_IDLE, sizeof after);
    board[LEVELSPRUCE_BOARD_COUNT] = after[LEVELSPRUCE_BOARD_COUNT] = LEVELSPRUCE_SLOTS_MOST;
    after[LEVELSPRUCE_BOARD_WAIT] = 0;
    for (i = 0; i < LEVELSPRUCE_SLOTS_MOST; i++)
        after[LEVELSPRUCE_BOARD_ROWS + 2 * i + 1] = LEVELSPRUCE_NUMBER_IDLE;
    answers |= levelspruce_board_changes(board, sizeof board, after, sizeof after, changes, sizeof changes);
    answers |= levelspruce_board_speak(changes, sizeof changes, text, sizeof text, &written);
    answers |= levelspruce_board_speak_runs(changes, sizeof changes, text, sizeof text, &written);
    answers |= levelspruce_board_speak_whole(after, sizeof after, text, sizeof text, &written);
    answers |= levelspruce_board_apply(board, sizeof board, changes, sizeof changes);
    answers |= memcmp(board, after, sizeof board) != 0;
}

/* The longest search, and a check of what it finds. */
static void planning(void)
{
    uint8_t plan[LEVELSPRUCE_PLAN_BYTES], accepted[1];
    uint32_t delays[LEVELSPRUCE_PATHS_MOST], i;

    for (i = 0; i < LEVELSPRUCE_PATHS_MOST; i++)
        delays[i] = i * 2477 % (LEVELSPRUCE_DELAY_MOST + 1);
    answers |= levelspruce_paths_plan(delays, LEVELSPRUCE_PATHS_MOST, 20, LEVELSPRUCE_WINDOW_MOST, plan, sizeof plan);
    answers |= levelspruce_paths_check(delays, LEVELSPRUCE_PATHS_MOST, 20, LEVELSPRUCE_WINDOW_MOST, plan + LEVELSPRUCE_PLAN_EACH, 20, accepted,
                                       sizeof accepted);
    answers |= accepted[0] != 1;
}

/* A line of each port, one that is dropped, and counts that break. */
static void mending(void)
{
    static uint8_t recording[4096], mended[4096], notes[4096];
    size_t mended_length = 0, notes_length = 0, length;
    int i;

    length = (size_t)sprintf((char *)recording, "64\t1\t16\n");
    for (i = 0; i < 256; i++)
        length += (size_t)sprintf((char *)recording + length, i == 70 ? "%d\t0%X\t0\n" : "%d\t0%X\t0\tAB\n", i % 64, (unsigned)(i / 64 == 1 ? 9 : i / 64));
    answers |= levelspruce_mend_lengths(recording, length, &mended_length, &notes_length);
    answers |= mended_length == 0 || mended_length > sizeof mended || notes_length == 0 || notes_length > sizeof notes;
    answers |= levelspruce_mend(recording, length, mended, mended_length, notes, notes_length);
}

/* The longest payload, and a line that is malformed. */
static void replaying(void)
{
    static uint8_t recording[60000], replay[LEVELSPRUCE_REPLAY_BYTES], said[LEVELSPRUCE_REPLAY_ROOM];
    size_t store_length = 0, out_length = 0, length, at = 0, written = 0;
    uint8_t wants = 0;
    int i;

    length = (size_t)sprintf((char *)recording, "64\t%d\t16\nx\n", P);
    for (i = 0; i < 10; i++) {
        length += (size_t)sprintf((char *)recording + length, "%d\t0%X\t0\t", i, (unsigned)i);
        memset(recording + length, 'A', 2 * P);
        length += 2 * P;
        recording[length++] = '\n';
    }
    answers |= levelspruce_replay_lengths(recording, length, &store_length, &out_length);
    answers |= store_length > sizeof store || out_length > sizeof out;
    answers |= levelspruce_replay_begin(replay, sizeof replay);
    while (!wants)
        answers |= levelspruce_replay_turn(replay, sizeof replay, recording, length, &at, 1, receiver, COUNT(receiver), store, store_length, out, out_length,
                                           said, sizeof said, &written, &wants);
    answers |= at != length;
}

static void (*calls)(void);

static void *call(void *unused)
{
    calls();
    return unused;
}

/* The bytes of stack that these calls take in a thread of their own. */
static size_t stack_of(void (*these)(void))
{
    static uint8_t *stack;
    pthread_attr_t attributes;
    pthread_t thread;
    size_t left = 0;

    if (stack == NULL && posix_memalign((void **)&stack, 65536, STACK) != 0)
        return STACK;
    calls = these;
    memset(stack, PAINT, STACK);
    if (pthread_attr_init(&attributes) != 0 || pthread_attr_setstack(&attributes, stack, STACK) != 0 || pthread_create(&thread, &attributes, call, NULL) != 0
        || pthread_join(thread, NULL) != 0)
        return STACK;
    while (left < STACK && stack[left] == PAINT)
        left++;
    return STACK - left;
}

int main(void)
{
    static const struct {
        const char *name;
        void (*calls)(void);
        size_t limit;
    } groups[] = { { "packets", packets, CARD },
                   { "payload", payloads, CARD },
                   { "sender", sending, CARD },
                   { "card", sharing, CARD },
                   { "receiver", receiving, CARD },
                   { "receiver of a fixed group", receiving_fixed, CARD },
                   { "sender of VC-12", sending_vc12, CARD },
                   { "receiver of VC-12", receiving_vc12, CARD },
                   { "paths", planning, CARD },
                   { "spoken board", telling, CARD },
                   { "mending", mending, DESK },
                   { "replay", replaying, REPLAY } };
    size_t own, i;
    int within = 1;

    stack_of(nothing); /* what is done once */
    own = stack_of(nothing);
    for (i = 0; i < COUNT(groups); i++) {
        size_t used = stack_of(groups[i].calls) - own;

        printf("stack\t%s\tbytes\t%lu\n", groups[i].name, (unsigned long)used);
        within &= used > 0 && used <= groups[i].limit;
    }
    check("every call was done, and epochs of 64 members were reported", answers == 0 && reported > 14);
    check("no call takes more than 7,680 bytes of stack, mending no more than 8,192, a replay that reads lines no more than 10,240", within);
    return tally();
}
