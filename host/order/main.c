/*
 * order: a planner's lines over a card with two circuits. Commands up to the next line of another kind are one order, given
 * in one call; each line is answered in its place, and the last two lines say how many were refused and how many malformed
 * (docs/MANUAL.md, 'Work orders').
 *
 *   size    8
 *   claim   0    3
 *   add     0    3
 *   report  0    32    BF    1
 *   lapse   0
 *   board   0
 *   owned   0
 *
 * Fields are parted by tabs. Status 0: every line was done; 1: some were not; 2: an input that cannot be read or an output
 * that cannot be written.
 */
#include <levelspruce.h>

#include <stdio.h>
#include <stdlib.h>

#include "../fields/answers.h"
#include "../fields/fields.h"
#include "lines.h"

/* A command that waits for its order, with its place in the input. */
struct waiting {
    const char *word;
    unsigned long line;
};

static uint8_t card[LEVELSPRUCE_CARD_BYTES];
static uint32_t (*commands)[LEVELSPRUCE_COMMAND_NUMBERS];
static struct waiting *waiting;
static uint8_t *answers;
static size_t count, room;
static unsigned long refused, malformed;

/* Ends the program where it cannot go on. */
static void stop(const char *why)
{
    fflush(stdout);
    fprintf(stderr, "order: %s\n", why);
    exit(2);
}

static void *wider(void *list, size_t size)
{
    void *new = realloc(list, room * size);

    if (new == NULL)
        stop("there is no memory for so many commands");
    return new;
}

static void keep(const struct line *l, unsigned long number)
{
    if (count == room) {
        room = room == 0 ? 64 : 2 * room;
        commands = wider(commands, sizeof *commands);
        waiting = wider(waiting, sizeof *waiting);
        answers = wider(answers, sizeof *answers);
    }
    commands[count][LEVELSPRUCE_COMMAND_KIND] = l->command;
    commands[count][LEVELSPRUCE_COMMAND_GROUP] = l->group;
    commands[count][LEVELSPRUCE_COMMAND_SLOT] = l->a;
    waiting[count].word = l->word;
    waiting[count].line = number;
    count++;
}

static void says(uint8_t answer, unsigned long number, const char *word)
{
    printf("answer\t%d\tline\t%lu\t%s", answer, number, word);
}

/* Ends a line that says() began. What was refused is counted, and the words behind it say why. */
static void says_why(uint8_t answer, const char *word, uint32_t group)
{
    if (answer != LEVELSPRUCE_ANSWER_DONE) {
        printf("\t%s", answer == LEVELSPRUCE_ANSWER_SLOT && group >= LEVELSPRUCE_GROUPS ? "no such group" : refusal(word, answer));
        refused++;
    }
    putchar('\n');
}

/* Gives the commands that wait as one order, and says what each is answered. */
static void give(void)
{
    size_t i;

    if (count == 0)
        return;
    if (levelspruce_card_order(card, sizeof card, (const uint32_t(*)[LEVELSPRUCE_COMMAND_NUMBERS])commands, count, answers, count) != LEVELSPRUCE_ANSWER_DONE)
        stop("an order was refused whole");
    for (i = 0; i < count; i++) {
        says(answers[i], waiting[i].line, waiting[i].word);
        printf("\tgroup\t%lu\tslot\t%lu", (unsigned long)commands[i][LEVELSPRUCE_COMMAND_GROUP], (unsigned long)commands[i][LEVELSPRUCE_COMMAND_SLOT]);
        says_why(answers[i], waiting[i].word, commands[i][LEVELSPRUCE_COMMAND_GROUP]);
    }
    count = 0;
}

/* A size that is refused leaves the card as it was. */
static uint8_t size(uint32_t slots)
{
    uint8_t started[LEVELSPRUCE_CARD_BYTES];
    uint8_t answer = levelspruce_card_start(slots, 0, 0, started, sizeof started);
    size_t i;

    for (i = 0; answer == LEVELSPRUCE_ANSWER_DONE && i < sizeof card; i++)
        card[i] = started[i];
    return answer;
}

/* The group's table as it stands now. */
static uint8_t board(uint32_t group)
{
    uint8_t now[LEVELSPRUCE_BOARD_BYTES];
    uint8_t answer = levelspruce_card_board(card, sizeof card, group, now, sizeof now);
    uint32_t slot;

    if (answer != LEVELSPRUCE_ANSWER_DONE)
        return answer;
    for (slot = 0; slot < now[LEVELSPRUCE_BOARD_COUNT]; slot++) {
        const uint8_t *row = now + LEVELSPRUCE_BOARD_ROWS + 2 * slot;

        printf("slot\t%lu\t%s\t%d\n", (unsigned long)slot, levelspruce_word_name(row[0]), row[1]);
    }
    printf("wait\t%d\n", now[LEVELSPRUCE_BOARD_WAIT]);
    return answer;
}

/* The slots that the group owns, those next to each other in one line. */
static uint8_t owned(uint32_t group)
{
    uint8_t own[LEVELSPRUCE_OWNED_BYTES];
    uint8_t answer = levelspruce_card_owned(card, sizeof card, group, own, sizeof own);
    size_t first, end, some = 0;

    if (answer != LEVELSPRUCE_ANSWER_DONE)
        return answer;
    for (first = 0; first < sizeof own; first = end + 1) {
        for (end = first; end < sizeof own && own[end]; end++)
            ;
        if (end == first + 1)
            printf("group\t%lu\towns\tslot\t%lu\n", (unsigned long)group, (unsigned long)first);
        else if (end > first)
            printf("group\t%lu\towns\tslots\t%lu\tto\t%lu\n", (unsigned long)group, (unsigned long)first, (unsigned long)end - 1);
        some += end - first;
    }
    if (some == 0)
        printf("group\t%lu\towns\tnone\n", (unsigned long)group);
    return answer;
}

/* A line with a group behind its word. What shows something is answered only where it is refused. */
static void take_of_group(const struct line *l, unsigned long number)
{
    uint8_t answer;

    switch (l->kind) {
    case LINE_REPORT: answer = levelspruce_card_report(card, sizeof card, l->group, l->a, l->b, l->c); break;
    case LINE_LAPSE: answer = levelspruce_card_lapse(card, sizeof card, l->group); break;
    case LINE_BOARD: answer = board(l->group); break;
    default: answer = owned(l->group); break;
    }
    if (answer == LEVELSPRUCE_ANSWER_DONE && (l->kind == LINE_BOARD || l->kind == LINE_OWNED))
        return;
    says(answer, number, l->word);
    printf("\tgroup\t%lu", (unsigned long)l->group);
    says_why(answer, l->word, l->group);
}

static void take_size(const struct line *l, unsigned long number)
{
    uint8_t answer = size(l->a);

    says(answer, number, l->word);
    printf("\t%lu", (unsigned long)l->a);
    says_why(answer, l->word, 0);
}

static void take_malformed(unsigned long number)
{
    printf("answer\t%d\tline\t%lu\t%s\n", ANSWER_MALFORMED, number, refusal("", ANSWER_MALFORMED));
    malformed++;
}

static void take(const struct line *l, unsigned long number)
{
    if (l->kind == LINE_COMMAND) {
        keep(l, number);
        return;
    }
    give();
    switch (l->kind) {
    case LINE_MALFORMED: take_malformed(number); break;
    case LINE_SIZE: take_size(l, number); break;
    default: take_of_group(l, number); break;
    }
}

/* Whoever waits for an answer has it when its line is done. */
static void flush(void)
{
    if (fflush(stdout) != 0)
        stop("the output cannot be written");
}

int main(void)
{
    struct line line;
    unsigned long number;

    /* before any size there are no slots: two empty groups, under 4 */
    if (levelspruce_card_start(0, 0, 0, card, sizeof card) != LEVELSPRUCE_ANSWER_RANGE)
        stop("a card cannot be started");
    for (number = 1; next_line(stdin, &line); number++) {
        take(&line, number);
        flush();
    }
    if (ferror(stdin))
        stop("the input cannot be read");
    give();
    printf("refused\t%lu\nmalformed\t%lu\n", refused, malformed);
    flush();
    return refused + malformed > 0;
}
