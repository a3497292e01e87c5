/* Times the calls of a card with two circuits beside the sender's own on the same group of 64 slots, all active, round by
 * round in one process. A line for each call: the medians of the rounds in nanoseconds a call, and of their ratio. */
#define _POSIX_C_SOURCE 199309L
#include "levelspruce.h"
#include <stdio.h>
#include <string.h>

#include "times.h"

enum { ROUNDS = 101, CALLS = 200, SLOTS = LEVELSPRUCE_SLOTS_MOST, G = 1 };

static uint8_t card[LEVELSPRUCE_CARD_BYTES], sender[LEVELSPRUCE_SENDER_BYTES];
static uint8_t h4[LEVELSPRUCE_PACKET_BYTES], board[LEVELSPRUCE_BOARD_BYTES], ranks[LEVELSPRUCE_RANKS_BYTES];

/* A slot removed, the wait closed, the slot added and made active again, and that wait closed. */
static uint8_t card_turn(int i)
{
    uint32_t slot = (uint32_t)i % SLOTS;

    return levelspruce_card_remove(card, sizeof card, G, slot) | levelspruce_card_lapse(card, sizeof card, G) | levelspruce_card_add(card, sizeof card, G, slot)
         | levelspruce_card_report(card, sizeof card, G, 7, 0, 0) | levelspruce_card_lapse(card, sizeof card, G);
}

static uint8_t sender_turn(int i)
{
    uint32_t slot = (uint32_t)i % SLOTS;

    return levelspruce_sender_remove(sender, sizeof sender, slot) | levelspruce_sender_lapse(sender, sizeof sender)
         | levelspruce_sender_add(sender, sizeof sender, slot) | levelspruce_sender_report(sender, sizeof sender, 7, 0, 0)
         | levelspruce_sender_lapse(sender, sizeof sender);
}

static uint8_t card_epoch(int i)
{
    return levelspruce_card_start_epoch(card, sizeof card, G, (uint32_t)i & 1, 0, 0);
}

static uint8_t sender_epoch(int i)
{
    return levelspruce_sender_start_epoch(sender, sizeof sender, (uint32_t)i & 1, 0, 0);
}

static uint8_t card_packet(int i)
{
    return levelspruce_card_packet(card, sizeof card, G, (uint32_t)i % SLOTS, h4, sizeof h4);
}

static uint8_t sender_packet(int i)
{
    return levelspruce_sender_packet(sender, sizeof sender, (uint32_t)i % SLOTS, h4, sizeof h4);
}

static uint8_t card_board(int i)
{
    return (void)i, levelspruce_card_board(card, sizeof card, G, board, sizeof board);
}

static uint8_t sender_board(int i)
{
    return (void)i, levelspruce_sender_board(sender, sizeof sender, board, sizeof board);
}

static uint8_t card_ranks(int i)
{
    return (void)i, levelspruce_card_ranks(card, sizeof card, G, ranks, sizeof ranks);
}

static uint8_t sender_ranks(int i)
{
    return (void)i, levelspruce_sender_ranks(sender, sizeof sender, ranks, sizeof ranks);
}

/* Claims and releases, which a sender has not, beside its add and remove. */
static uint8_t card_claim(int i)
{
    return i % 2 == 0 ? levelspruce_card_claim(card, sizeof card, 0, SLOTS - 1) : levelspruce_card_release(card, sizeof card, 0, SLOTS - 1);
}

static double round_of(uint8_t (*call)(int))
{
    double begun = now(CLOCK_MONOTONIC);

    for (int i = 0; i < CALLS; i++)
        if (call(i) != LEVELSPRUCE_ANSWER_DONE)
            exit(1);
    return (now(CLOCK_MONOTONIC) - begun) / CALLS;
}

/* calls, others: how many calls of the library one of each makes */
static void measure(const char *name, uint8_t (*of_card)(int), int calls, uint8_t (*of_sender)(int), int others)
{
    double ours[ROUNDS], beside[ROUNDS], ratios[ROUNDS];

    for (int r = 0; r < ROUNDS; r++) {
        ours[r] = round_of(of_card) / calls;
        beside[r] = round_of(of_sender) / others;
        ratios[r] = ours[r] / beside[r];
    }
    printf("card %s\tslots\t%d\tproved ns\t%.0f\tsender ns\t%.0f\tratio to sender\t%.2f\n", name, SLOTS, median(ours, ROUNDS), median(beside, ROUNDS),
           median(ratios, ROUNDS));
}

static void begin(void)
{
    uint32_t slot, epoch;
    unsigned answers = levelspruce_card_start(SLOTS, 0, 0, card, sizeof card) | levelspruce_sender_start(SLOTS, 0, sender, sizeof sender);

    for (slot = 0; slot < SLOTS; slot++)
        answers |= levelspruce_card_claim(card, sizeof card, G, slot) | levelspruce_card_add(card, sizeof card, G, slot)
                 | levelspruce_sender_add(sender, sizeof sender, slot);
    for (epoch = 0; epoch < SLOTS / 8; epoch++)
        answers |= levelspruce_card_report(card, sizeof card, G, epoch, 0, 0) | levelspruce_card_lapse(card, sizeof card, G)
                 | levelspruce_sender_report(sender, sizeof sender, epoch, 0, 0) | levelspruce_sender_lapse(sender, sizeof sender);
    if (answers != LEVELSPRUCE_ANSWER_DONE)
        exit(1);
}

int main(void)
{
    begin();
    measure("epoch", card_epoch, 1, sender_epoch, 1);
    measure("packet", card_packet, 1, sender_packet, 1);
    measure("board", card_board, 1, sender_board, 1);
    measure("ranks", card_ranks, 1, sender_ranks, 1);
    measure("commands", card_turn, 5, sender_turn, 5);
    if (levelspruce_card_remove(card, sizeof card, G, SLOTS - 1) != 0 || levelspruce_card_release(card, sizeof card, G, SLOTS - 1) != 0)
        return 1;
    measure("claim", card_claim, 1, sender_turn, 5);
    return 0;
}
