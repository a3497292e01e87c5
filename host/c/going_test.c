/*
 * Tests of the calls that tell the changes of the board going out, over the archive: every answer number, the order of the
 * refusals, that a refusal changes no byte, that whenever they are called the board is the one which the last start of an
 * epoch has fixed, and a listener who applies what she is told among any calls.
 */
#include <levelspruce.h>

#include <string.h>

#include "check.h"

enum { LENT_MOST = 2 * LEVELSPRUCE_CARD_BYTES };
#include "lent.h"

enum { SENDER = LEVELSPRUCE_SENDER_BYTES, CARD = LEVELSPRUCE_CARD_BYTES, BOARD = LEVELSPRUCE_BOARD_BYTES, CHANGES = LEVELSPRUCE_CHANGES_BYTES };
enum { A = LEVELSPRUCE_WORD_ADD, N = LEVELSPRUCE_WORD_NORM, E = LEVELSPRUCE_WORD_EOS, I = LEVELSPRUCE_WORD_IDLE };
enum { ALONE = 2 }; /* a sender, where else a card's group stands */

static struct lent state, told, changes;

#define is(list, ...) (list_is((list), (const uint8_t[]){ __VA_ARGS__ }, sizeof((const uint8_t[]){ __VA_ARGS__ })))

/* The call itself, of a sender or of a card's group; a length of 0 goes with NULL. */
static uint8_t call(uint32_t g, size_t sl, size_t tl, size_t cl)
{
    uint8_t *s = sl ? lent_bytes(&state) : NULL, *t = tl ? lent_bytes(&told) : NULL, *c = cl ? lent_bytes(&changes) : NULL;

    return g == ALONE ? levelspruce_sender_changes(s, sl, t, tl, c, cl) : levelspruce_card_changes(s, sl, g == ALONE + 1 ? ALONE : g, t, tl, c, cl);
}

/* The answer, or -1 where a byte changed that this answer must leave. */
static int ask(uint32_t g, size_t sl, size_t tl, size_t cl)
{
    int answer;

    noise(changes.now, sizeof changes.now, 3);
    remember(&state);
    remember(&told);
    remember(&changes);
    answer = call(g, sl, tl, cl);
    return untouched(&state) && stands(&told, answer == 0 ? tl : 0) && stands(&changes, answer == 0 ? cl : 0) ? answer : -1;
}

static int tell(uint32_t g)
{
    return ask(g, g == ALONE ? SENDER : CARD, BOARD, CHANGES);
}

/* The board going out, as the call that shows it has it. */
static int going(uint32_t g, uint8_t *board)
{
    return g == ALONE ? levelspruce_sender_board_going(lent_bytes(&state), SENDER, board, BOARD)
                      : levelspruce_card_board_going(lent_bytes(&state), CARD, g, board, BOARD);
}

static int told_is_going(uint32_t g)
{
    uint8_t board[BOARD];

    return going(g, board) == 0 && memcmp(board, lent_bytes(&told), BOARD) == 0;
}

/* The changes are these, and zeros behind them. */
static int list_is(struct lent *list, const uint8_t *bytes, size_t length)
{
    uint8_t all[CHANGES] = { 0 };

    memcpy(all, bytes, length);
    return memcmp(lent_bytes(list), all, sizeof all) == 0;
}

/* Started with slots, and the board of the start told. A card's slots are all claimed by the group. */
static int begun(uint32_t g, uint32_t slots)
{
    uint32_t i;
    int held;

    lend(&state, NULL, 0);
    lend(&told, NULL, 0);
    if (g == ALONE)
        return levelspruce_sender_start(slots, 7, lent_bytes(&state), SENDER) == 0 && going(g, lent_bytes(&told)) == 0;
    held = levelspruce_card_start(slots, 7, 7, lent_bytes(&state), CARD) == 0 && going(g, lent_bytes(&told)) == 0;
    for (i = 0; i < slots; i++)
        held = held && levelspruce_card_claim(lent_bytes(&state), CARD, g, i) == 0;
    return held;
}

static uint8_t add(uint32_t g, uint32_t slot)
{
    return g == ALONE ? levelspruce_sender_add(lent_bytes(&state), SENDER, slot) : levelspruce_card_add(lent_bytes(&state), CARD, g, slot);
}

static uint8_t away(uint32_t g, uint32_t slot)
{
    return g == ALONE ? levelspruce_sender_remove(lent_bytes(&state), SENDER, slot) : levelspruce_card_remove(lent_bytes(&state), CARD, g, slot);
}

static uint8_t report(uint32_t g, uint32_t epoch, uint32_t mst, uint32_t ack)
{
    return g == ALONE ? levelspruce_sender_report(lent_bytes(&state), SENDER, epoch, mst, ack)
                      : levelspruce_card_report(lent_bytes(&state), CARD, g, epoch, mst, ack);
}

static uint8_t lapse(uint32_t g)
{
    return g == ALONE ? levelspruce_sender_lapse(lent_bytes(&state), SENDER) : levelspruce_card_lapse(lent_bytes(&state), CARD, g);
}

static uint8_t epoch(uint32_t g, uint32_t gid)
{
    return g == ALONE ? levelspruce_sender_start_epoch(lent_bytes(&state), SENDER, gid, 0xFF, 0)
                      : levelspruce_card_start_epoch(lent_bytes(&state), CARD, g, gid, 0xFF, 0);
}

/* P9 in words: three members, the middle one goes. Nothing is told before the epoch's start, and then all of it. */
static void worked(uint32_t g)
{
    check("before the first epoch the board of the start goes out", begun(g, 3) && tell(g) == 0 && is(&changes, 0, 0) && told_is_going(g));
    check("commands are not told before an epoch starts",
          add(g, 0) == 0 && add(g, 1) == 0 && add(g, 2) == 0 && tell(g) == 0 && is(&changes, 0, 0) && told_is_going(g));
    check("at its start they are",
          epoch(g, 0) == 0 && tell(g) == 0 && is(&changes, 3, 0, 0, I, 255, A, 0, 1, I, 255, A, 1, 2, I, 255, A, 2) && told_is_going(g));
    check("told again there is nothing", tell(g) == 0 && is(&changes, 0, 0));
    check("what comes and goes between two starts is not told",
          report(g, 0, 0, 0) == 0 && lapse(g) == 0 && away(g, 1) == 0 && lapse(g) == 0 && tell(g) == 0 && is(&changes, 0, 0) && told_is_going(g));
    check("a start that is refused fixes no board", epoch(g, 2) == 8 && tell(g) == 0 && is(&changes, 0, 0) && told_is_going(g));
    check("at the next start the list goes from the board told last",
          epoch(g, 1) == 0 && tell(g) == 0 && is(&changes, 3, 0, 0, A, 0, N, 0, 1, A, 1, I, 255, 2, A, 2, E, 1) && told_is_going(g));
    check("a wait that opens is told with the start",
          away(g, 0) == 0 && epoch(g, 0) == 0 && tell(g) == 0 && is(&changes, 2, LEVELSPRUCE_WAIT_OPENED, 0, N, 0, I, 255, 2, E, 1, E, 0) && told_is_going(g));
    check("starts that were missed are told by one list", lapse(g) == 0 && add(g, 1) == 0 && epoch(g, 0) == 0 && report(g, 0, 0, 0) == 0 && epoch(g, 0) == 0
                                                              && tell(g) == 0 && lent_bytes(&changes)[0] == 2 && told_is_going(g));
}

static void refusals(uint32_t g)
{
    static const size_t wrong[] = { 0, 1, BOARD - 1, BOARD + 1, CHANGES - 1, CHANGES + 1, SENDER - 1, SENDER + 1, CARD - 1, CARD + 1 };
    size_t whole = g == ALONE ? SENDER : CARD, i;
    int states = 1, boards = 1, lists = 1, counts = begun(g, 3) && add(g, 0) == 0 && epoch(g, 0) == 0;
    unsigned n;

    for (i = 0; i < COUNT(wrong); i++) {
        states = states && ask(g, wrong[i], BOARD, CHANGES) == 9;
        boards = boards && (wrong[i] == BOARD || ask(g, whole, wrong[i], CHANGES) == 9);
        lists = lists && (wrong[i] == CHANGES || ask(g, whole, BOARD, wrong[i]) == 9);
    }
    check("a wrong length of the state is 9", states);
    check("a wrong length of the board is 9", boards);
    check("a wrong length of the changes is 9", lists);
    for (n = 0; n < 256; n++)
        if (n != 3) {
            lent_bytes(&told)[LEVELSPRUCE_BOARD_COUNT] = (uint8_t)n;
            counts = counts && tell(g) == 4;
        }
    check("a board of another count is 4", counts);
    check("9 comes before 4", ask(g, whole, BOARD - 1, CHANGES) == 9 && ask(g, whole, BOARD, CHANGES - 1) == 9);
    lent_bytes(&told)[LEVELSPRUCE_BOARD_COUNT] = 3;
    lent_bytes(&told)[LEVELSPRUCE_BOARD_WAIT] = 9;
    check("any byte but 0 is an open wait", tell(g) == 0 && lent_bytes(&changes)[LEVELSPRUCE_CHANGES_WAIT] == LEVELSPRUCE_WAIT_CLOSED && told_is_going(g));
}

/* A count above 64 stands only in a state that no call wrote. */
static void any_state(uint32_t g)
{
    static const size_t counts[] = { 64 + 388, 461 + 388, 388 }; /* where the count of the board going out stands */
    int held = begun(g, 64);

    lent_bytes(&state)[counts[g]] = 65;
    lent_bytes(&told)[LEVELSPRUCE_BOARD_COUNT] = 65;
    check("a count above 64 is 4", held && tell(g) == 4);
    noise(lent_bytes(&state), g == ALONE ? SENDER : CARD, 11);
    lent_bytes(&told)[LEVELSPRUCE_BOARD_COUNT] = lent_bytes(&state)[counts[g]];
    check("any state is answered", tell(g) == (lent_bytes(&state)[counts[g]] <= 64 ? 0 : 4));
}

static uint32_t drawn = 12345;

static uint32_t draw(uint32_t n)
{
    drawn = drawn * 1664525u + 1013904223u;
    return (drawn >> 16) % n;
}

/* Any calls, and now and then a telling: the listener's own board, to which the changes are applied, is the board told. */
static void listener(uint32_t g)
{
    uint8_t hers[BOARD], fixed[BOARD];
    int held = begun(g, 8) && going(g, hers) == 0 && going(g, fixed) == 0, turn;

    for (turn = 0; turn < 20000 && held; turn++)
        switch (draw(8)) {
        case 0:
        case 1: held = add(g, draw(9)) < 15; break;
        case 2: held = away(g, draw(9)) < 15; break;
        case 3: held = report(g, draw(256), draw(256), draw(2)) == 0; break;
        case 4: held = lapse(g) < 3; break;
        case 5:
            /* another group's call shows in nothing */
            held = g == ALONE || levelspruce_card_start_epoch(lent_bytes(&state), CARD, 1 - g, 0, 0, 0) == 0;
            break;
        case 6:
            if (epoch(g, draw(3)) == 0)
                held = going(g, fixed) == 0;
            break;
        default:
            held = tell(g) == 0 && memcmp(lent_bytes(&told), fixed, BOARD) == 0 && levelspruce_board_apply(hers, BOARD, lent_bytes(&changes), CHANGES) == 0
                && memcmp(hers, fixed, BOARD) == 0;
        }
    check("a listener holds the board of the last start", held);
}

int main(void)
{
    static const char *const whose[] = { "group 0", "group 1", "a sender" };
    uint32_t g;

    for (g = 0; g <= ALONE; g++) {
        printf("of\t%s\n", whose[g]);
        worked(g);
        refusals(g);
        any_state(g);
        listener(g);
    }
    lend(&state, NULL, 0);
    check("a group other than the two is 1", begun(0, 3) && ask(ALONE + 1, CARD, BOARD, CHANGES) == 1);
    check("1 comes before 9 for the board", ask(ALONE + 1, CARD, BOARD - 1, CHANGES) == 1 && ask(ALONE + 1, CARD, BOARD, CHANGES - 1) == 1);
    check("and behind 9 for the state", ask(ALONE + 1, CARD - 1, BOARD, CHANGES) == 9);
    return tally();
}
