/* Times a work order of thirty commands, fifteen claims and fifteen adds on a card of 64 slots, beside its single calls, round
 * by round in one process. One line: the medians of the rounds in nanoseconds an order, and of their ratio. */
#define _POSIX_C_SOURCE 199309L
#include "levelspruce.h"
#include <stdio.h>
#include <string.h>

#include "times.h"

enum { ROUNDS = 101, ORDERS = 50, COMMANDS = 30, SLOTS = LEVELSPRUCE_SLOTS_MOST };

static uint8_t fresh[LEVELSPRUCE_CARD_BYTES], card[LEVELSPRUCE_CARD_BYTES], answers[COMMANDS];
static uint32_t commands[COMMANDS][LEVELSPRUCE_COMMAND_NUMBERS];

static uint8_t whole(void)
{
    return levelspruce_card_order(card, sizeof card, (const uint32_t(*)[LEVELSPRUCE_COMMAND_NUMBERS])commands, COMMANDS, answers, sizeof answers);
}

static uint8_t single(void)
{
    uint8_t answered = 0;

    for (int i = 0; i < COMMANDS; i++)
        answered |= i % 2 == 0 ? levelspruce_card_claim(card, sizeof card, commands[i][LEVELSPRUCE_COMMAND_GROUP], commands[i][LEVELSPRUCE_COMMAND_SLOT])
                               : levelspruce_card_add(card, sizeof card, commands[i][LEVELSPRUCE_COMMAND_GROUP], commands[i][LEVELSPRUCE_COMMAND_SLOT]);
    return answered;
}

/* Each order begins on the card as it was started, so that no command is refused; the copy is timed with it. */
static double round_of(uint8_t (*order)(void))
{
    double begun = now(CLOCK_MONOTONIC);

    for (int i = 0; i < ORDERS; i++) {
        memcpy(card, fresh, sizeof card);
        if (order() != LEVELSPRUCE_ANSWER_DONE)
            exit(1);
    }
    return (now(CLOCK_MONOTONIC) - begun) / ORDERS;
}

int main(void)
{
    static const uint8_t all_done[COMMANDS];
    double ours[ROUNDS], beside[ROUNDS], ratios[ROUNDS];

    if (levelspruce_card_start(SLOTS, 0, 0, fresh, sizeof fresh) != LEVELSPRUCE_ANSWER_DONE)
        return 1;
    for (uint32_t i = 0; i < COMMANDS; i++) {
        commands[i][LEVELSPRUCE_COMMAND_KIND] = i % 2 == 0 ? LEVELSPRUCE_COMMAND_CLAIM : LEVELSPRUCE_COMMAND_ADD;
        commands[i][LEVELSPRUCE_COMMAND_GROUP] = i / 2 % LEVELSPRUCE_GROUPS;
        commands[i][LEVELSPRUCE_COMMAND_SLOT] = i / 2;
    }
    for (int r = 0; r < ROUNDS; r++) {
        ours[r] = round_of(whole);
        beside[r] = round_of(single);
        ratios[r] = ours[r] / beside[r];
    }
    if (memcmp(answers, all_done, sizeof answers) != 0)
        return 1;
    printf("order\tcommands\t%d\tproved ns\t%.0f\tsingle calls ns\t%.0f\tratio to single calls\t%.2f\n", COMMANDS, median(ours, ROUNDS), median(beside, ROUNDS),
           median(ratios, ROUNDS));
    return 0;
}
