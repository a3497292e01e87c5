/*
 * Tests of a whole work order over the archive: the examples of request 2026-07, every answer of a command and of the call,
 * that a refusal changes no byte, orders against single calls from started, from damaged and from any state bytes, and a
 * list of 10,000 commands.
 */
#include <levelspruce.h>

#include <stdlib.h>
#include <string.h>

#include "check.h"

enum { MOST = 10000, LENT_MOST = MOST };
#include "lent.h"

enum { STATE = LEVELSPRUCE_CARD_BYTES, WORDS = LEVELSPRUCE_COMMAND_NUMBERS };
enum { ADD = LEVELSPRUCE_COMMAND_ADD, REMOVE = LEVELSPRUCE_COMMAND_REMOVE, CLAIM = LEVELSPRUCE_COMMAND_CLAIM, RELEASE = LEVELSPRUCE_COMMAND_RELEASE };

static struct lent state, answers;
static uint32_t commands[MOST][WORDS], before[MOST][WORDS];
static uint32_t seed = 1;

/* The call itself; a length of 0 goes with NULL. */
static uint8_t order(size_t state_length, size_t n, size_t answers_length)
{
    return levelspruce_card_order(state_length ? lent_bytes(&state) : NULL, state_length, n ? (const uint32_t(*)[WORDS])commands : NULL, n,
                                  answers_length ? lent_bytes(&answers) : NULL, answers_length);
}

/* The answer, or -1 where a byte changed that this answer must leave. The commands are lent to be read alone. */
static int say(size_t state_length, size_t n, size_t answers_length)
{
    int answer;

    remember(&state);
    remember(&answers);
    memcpy(before, commands, sizeof commands);
    answer = order(state_length, n, answers_length);
    return memcmp(before, commands, sizeof commands) == 0 && stands(&state, answer == 0 ? STATE : 0) && stands(&answers, answer == 0 ? n : 0) ? answer : -1;
}

static void start(uint32_t count)
{
    lend(&state, NULL, 0);
    lend(&answers, NULL, 0);
    if (levelspruce_card_start(count, 0, 0, lent_bytes(&state), STATE) != LEVELSPRUCE_ANSWER_DONE)
        abort();
}

static size_t list(const uint32_t (*rows)[WORDS], size_t n)
{
    memcpy(commands, rows, n * sizeof *rows);
    return n;
}

/* These rows, and the answers that are wanted to them. */
static int answered(const uint32_t (*rows)[WORDS], const uint8_t *wanted, size_t n)
{
    return say(STATE, list(rows, n), n) == 0 && memcmp(lent_bytes(&answers), wanted, n) == 0;
}

/* The single call of a command, which a host that knows no such kind does not make. */
static uint8_t single(uint8_t *s, const uint32_t *c)
{
    switch (c[LEVELSPRUCE_COMMAND_KIND]) {
    case ADD: return levelspruce_card_add(s, STATE, c[LEVELSPRUCE_COMMAND_GROUP], c[LEVELSPRUCE_COMMAND_SLOT]);
    case REMOVE: return levelspruce_card_remove(s, STATE, c[LEVELSPRUCE_COMMAND_GROUP], c[LEVELSPRUCE_COMMAND_SLOT]);
    case CLAIM: return levelspruce_card_claim(s, STATE, c[LEVELSPRUCE_COMMAND_GROUP], c[LEVELSPRUCE_COMMAND_SLOT]);
    case RELEASE: return levelspruce_card_release(s, STATE, c[LEVELSPRUCE_COMMAND_GROUP], c[LEVELSPRUCE_COMMAND_SLOT]);
    default: return LEVELSPRUCE_ANSWER_FIELD;
    }
}

/* An order of the first n commands leaves the bytes and answers of the single calls. */
static int is_one_by_one(size_t n)
{
    static uint8_t alone[STATE], numbers[MOST];
    size_t i;

    memcpy(alone, lent_bytes(&state), STATE);
    for (i = 0; i < n; i++)
        numbers[i] = single(alone, commands[i]);
    return say(STATE, n, n) == 0 && memcmp(alone, lent_bytes(&state), STATE) == 0 && memcmp(numbers, lent_bytes(&answers), n) == 0;
}

static uint32_t any(uint32_t below)
{
    seed = seed * 1664525u + 1013904223u;
    return (seed >> 8) % below;
}

static void draw(size_t n, uint32_t slots)
{
    size_t i;

    for (i = 0; i < n; i++) {
        commands[i][LEVELSPRUCE_COMMAND_KIND] = any(16) == 0 ? 4 + any(300) : any(4);
        commands[i][LEVELSPRUCE_COMMAND_GROUP] = any(16) == 0 ? 2 + any(300) : any(2);
        commands[i][LEVELSPRUCE_COMMAND_SLOT] = any(16) == 0 ? slots + any(300) : any(slots);
    }
}

static void examples(void)
{
    static const uint32_t six[][WORDS] = { { CLAIM, 0, 0 }, { ADD, 0, 0 }, { ADD, 0, 0 }, { REMOVE, 0, 0 }, { ADD, 0, 1 }, { CLAIM, 1, 0 } };
    static const uint32_t trap[][WORDS] = { { CLAIM, 0, 1 },   { REMOVE, 0, 0 }, { ADD, 0, 1 }, { REMOVE, 0, 1 },
                                            { RELEASE, 0, 0 }, { CLAIM, 1, 0 },  { ADD, 1, 0 } };
    static const uint32_t numbers[][WORDS] = { { 4, 0, 0 },     { 4, 9, 99 },      { UINT32_MAX, 0, 0 }, { 256, 0, 0 }, { ADD, 2, 0 },
                                               { CLAIM, 0, 2 }, { RELEASE, 0, 0 }, { CLAIM, 1, 1 },      { ADD, 1, 1 }, { RELEASE, 1, 1 } };

    start(2);
    check("claim 0 0, add 0 0, add 0 0, remove 0 0, add 0 1, claim 1 0", answered(six, (const uint8_t[]){ 0, 0, 2, 0, 14, 14 }, COUNT(six)));
    start(2);
    check("the same with claim 0 1 done before",
          levelspruce_card_claim(lent_bytes(&state), STATE, 0, 1) == 0 && answered(six, (const uint8_t[]){ 0, 0, 2, 0, 3, 14 }, COUNT(six)));
    start(2);
    check("a remove opens the wait for what follows of its group, and for nothing else",
          levelspruce_card_claim(lent_bytes(&state), STATE, 0, 0) == 0 && levelspruce_card_add(lent_bytes(&state), STATE, 0, 0) == 0
              && answered(trap, (const uint8_t[]){ 0, 0, 3, 3, 0, 0, 0 }, COUNT(trap)));
    start(2);
    check("a kind above 3 is 8 before all else, and the rest go on", answered(numbers, (const uint8_t[]){ 8, 8, 8, 8, 1, 1, 14, 0, 0, 15 }, COUNT(numbers)));
}

static void lengths(void)
{
    static const size_t wrong[] = { 0, 1, STATE - 1, STATE + 1, 2 * STATE };
    static const uint32_t three[][WORDS] = { { CLAIM, 0, 0 }, { ADD, 0, 0 }, { CLAIM, 1, 1 } };
    size_t n = list(three, COUNT(three)), i;
    int held = 1;

    start(2);
    check("three commands and two answers: 9, and no byte changes", say(STATE, n, n - 1) == 9 && say(STATE, n, n + 1) == 9 && say(STATE, n, 0) == 9);
    check("no command and one answer: 9", say(STATE, 0, 1) == 9);
    for (i = 0; i < COUNT(wrong); i++)
        held &= say(wrong[i], n, n) == 9 && say(wrong[i], 0, 0) == 9 && say(wrong[i], n, n - 1) == 9;
    check("a state of another length: 9", held);
    check("no commands: 0", say(STATE, 0, 0) == 0);
    check("and no byte changes", untouched(&state) && untouched(&answers));
    noise(lent_bytes(&state), STATE, 77);
    check("nor of any bytes, which are not encoded anew", say(STATE, 0, 0) == 0 && untouched(&state));
}

/* Commands that are all refused, on any bytes. */
static void refusals(void)
{
    size_t i, n = 200;
    uint32_t round;
    int held = 1;

    for (round = 0; round < 200; round++) {
        lend(&answers, NULL, 0);
        noise(lent_bytes(&state), STATE, round);
        for (i = 0; i < n; i++) {
            commands[i][LEVELSPRUCE_COMMAND_KIND] = any(8);
            commands[i][LEVELSPRUCE_COMMAND_GROUP] = any(3);
            commands[i][LEVELSPRUCE_COMMAND_SLOT] = commands[i][LEVELSPRUCE_COMMAND_GROUP] < 2 ? 64 + any(9) : any(64);
        }
        held &= say(STATE, n, n) == 0 && untouched(&state);
        for (i = 0; i < n; i++)
            held &= lent_bytes(&answers)[i] == (commands[i][LEVELSPRUCE_COMMAND_KIND] > 3 ? 8 : 1);
    }
    check("where every command is refused no byte changes, of any bytes", held);
}

static void against_single_calls(void)
{
    uint32_t round, slots;
    int started = 1, damaged = 1, noisy = 1, cut = 1;
    size_t n, first;

    for (round = 0; round < 400; round++) {
        slots = 1 + any(64);
        start(slots);
        draw(n = any(200), slots);
        started &= is_one_by_one(n);
        lent_bytes(&state)[any(STATE)] ^= (uint8_t)(1 + any(255));
        draw(n = any(200), 64);
        damaged &= is_one_by_one(n);
        noise(lent_bytes(&state), STATE, round);
        draw(n = any(200), 64);
        noisy &= is_one_by_one(n);
    }
    check("orders are single calls, from a start", started);
    check("and from damaged bytes", damaged);
    check("and from any bytes", noisy);
    for (round = 0; round < 200; round++) {
        static uint8_t whole[STATE], numbers[MOST];

        start(64);
        draw(n = 1 + any(200), 64);
        first = any((uint32_t)n);
        cut &= order(STATE, n, n) == 0;
        memcpy(whole, lent_bytes(&state), STATE);
        memcpy(numbers, lent_bytes(&answers), n);
        start(64);
        cut &= levelspruce_card_order(lent_bytes(&state), STATE, (const uint32_t(*)[WORDS])commands, first, lent_bytes(&answers), first) == 0;
        cut &= levelspruce_card_order(lent_bytes(&state), STATE, (const uint32_t(*)[WORDS])(commands + first), n - first, lent_bytes(&answers) + first,
                                      n - first)
            == 0;
        cut &= memcmp(whole, lent_bytes(&state), STATE) == 0 && memcmp(numbers, lent_bytes(&answers), n) == 0;
    }
    check("an order cut in two is the same", cut);
    start(64);
    draw(MOST, 64);
    check("10,000 commands", is_one_by_one(MOST));
}

int main(void)
{
    examples();
    lengths();
    refusals();
    against_single_calls();
    return tally();
}
