/*
 * Tests of the spoken board's calls over the archive: every answer number, the order of the refusals, that a refusal changes
 * no byte, the worked examples P9 and P10, each way in which changes do not fit, and the lines, slot by slot and in runs.
 */
#include <levelspruce.h>

#include <string.h>

#include "check.h"

enum { LENT_MOST = 2 * LEVELSPRUCE_SPEECH_BYTES };
#include "lent.h"

enum { BOARD = LEVELSPRUCE_BOARD_BYTES, CHANGES = LEVELSPRUCE_CHANGES_BYTES, SPEECH = LEVELSPRUCE_SPEECH_BYTES };
enum { N = LEVELSPRUCE_WORD_NORM, E = LEVELSPRUCE_WORD_EOS, I = LEVELSPRUCE_WORD_IDLE, D = LEVELSPRUCE_WORD_DNU };

static struct lent before, after, changes, text;
static size_t written;

/* A board of so many rows, the rest IDLE. */
static void board(struct lent *l, uint8_t count, uint8_t wait, const uint8_t *rows)
{
    uint8_t bytes[BOARD];
    size_t i;

    bytes[LEVELSPRUCE_BOARD_COUNT] = count;
    bytes[LEVELSPRUCE_BOARD_WAIT] = wait;
    for (i = 0; i < LEVELSPRUCE_SLOTS_MOST; i++) {
        bytes[LEVELSPRUCE_BOARD_ROWS + 2 * i] = I;
        bytes[LEVELSPRUCE_BOARD_ROWS + 2 * i + 1] = LEVELSPRUCE_NUMBER_IDLE;
    }
    memcpy(bytes + LEVELSPRUCE_BOARD_ROWS, rows, 2 * (size_t)count);
    lend(l, bytes, sizeof bytes);
}

static const uint8_t p9_before[] = { N, 0, N, 1, E, 2 }, p9_after[] = { N, 0, I, 255, E, 1 };
static const uint8_t p9_changes[] = { 2, 1, 1, N, 1, I, 255, 2, E, 2, E, 1 };
static const uint8_t p10_before[] = { N, 0, E, 1 }, p10_after[] = { E, 0, D, 1 };

/* The answer, or -1 where a byte changed that this answer must leave. A length of 0 goes with NULL. */
static int compared(size_t bl, size_t al, size_t cl)
{
    int answer;

    lend(&changes, NULL, 0);
    remember(&before);
    remember(&after);
    answer = levelspruce_board_changes(bl ? lent_bytes(&before) : NULL, bl, al ? lent_bytes(&after) : NULL, al, cl ? lent_bytes(&changes) : NULL, cl);
    return untouched(&before) && untouched(&after) && stands(&changes, answer == 0 ? cl : 0) ? answer : -1;
}

static int applied(size_t bl, size_t cl)
{
    int answer;

    remember(&before);
    remember(&changes);
    answer = levelspruce_board_apply(bl ? lent_bytes(&before) : NULL, bl, cl ? lent_bytes(&changes) : NULL, cl);
    return untouched(&changes) && stands(&before, answer == 0 ? bl : 0) ? answer : -1;
}

static int spoken(size_t cl, size_t tl)
{
    int answer;

    lend(&text, NULL, 0);
    remember(&changes);
    written = 12345;
    answer = levelspruce_board_speak(cl ? lent_bytes(&changes) : NULL, cl, tl ? lent_bytes(&text) : NULL, tl, &written);
    return untouched(&changes) && stands(&text, answer == 0 ? written : 0) && (answer == 0 || written == 12345) ? answer : -1;
}

/* In runs it is refused as it is slot by slot. */
static int spoken_in_runs(size_t cl, size_t tl)
{
    int answer;

    lend(&text, NULL, 0);
    remember(&changes);
    written = 12345;
    answer = levelspruce_board_speak_runs(cl ? lent_bytes(&changes) : NULL, cl, tl ? lent_bytes(&text) : NULL, tl, &written);
    return untouched(&changes) && stands(&text, answer == 0 ? written : 0) && (answer == 0 || written == 12345) ? answer : -1;
}

static int spoken_whole(size_t bl, size_t tl)
{
    int answer;

    lend(&text, NULL, 0);
    remember(&before);
    written = 12345;
    answer = levelspruce_board_speak_whole(bl ? lent_bytes(&before) : NULL, bl, tl ? lent_bytes(&text) : NULL, tl, &written);
    return untouched(&before) && stands(&text, answer == 0 ? written : 0) && (answer == 0 || written == 12345) ? answer : -1;
}

static int stand(const char *lines)
{
    return written == strlen(lines) && memcmp(lent_bytes(&text), lines, written) == 0;
}

static int says(const char *lines)
{
    return spoken(CHANGES, SPEECH) == 0 && stand(lines);
}

static int runs_say(const char *lines)
{
    return compared(BOARD, BOARD, CHANGES) == 0 && spoken_in_runs(CHANGES, SPEECH) == 0 && stand(lines);
}

static int whole_says(const char *lines)
{
    return spoken_whole(BOARD, SPEECH) == 0 && stand(lines);
}

/* The changes are these, and zeros behind them. */
static int changes_are(const uint8_t *bytes, size_t length)
{
    uint8_t all[CHANGES] = { 0 };

    memcpy(all, bytes, length);
    return memcmp(lent_bytes(&changes), all, sizeof all) == 0;
}

static int same_board(void)
{
    return memcmp(lent_bytes(&before), lent_bytes(&after), BOARD) == 0;
}

static void p9(void)
{
    board(&before, 3, 0, p9_before);
    board(&after, 3, 1, p9_after);
}

static void examples(void)
{
    p9();
    check("P9's changes", compared(BOARD, BOARD, CHANGES) == 0 && changes_are(p9_changes, sizeof p9_changes));
    check("P9's lines", says("slot\t1\twas\tNORM\t1\tnow\tIDLE\t255\nslot\t2\twas\tEOS\t2\tnow\tEOS\t1\nwait\topen\n"));
    check("P9's changes applied", applied(BOARD, CHANGES) == 0 && same_board());
    check("P9's changes applied a second time", applied(BOARD, CHANGES) == 2 && same_board());
    board(&before, 2, 0, p10_before);
    board(&after, 2, 0, p10_after);
    check("P10: a word alone", compared(BOARD, BOARD, CHANGES) == 0 && says("slot\t0\twas\tNORM\t0\tnow\tEOS\t0\nslot\t1\twas\tEOS\t1\tnow\tDNU\t1\n"));
    board(&after, 2, 0, p10_before);
    check("equal boards are silent", compared(BOARD, BOARD, CHANGES) == 0 && changes_are((const uint8_t[]){ 0 }, 1) && says(""));
    board(&before, 2, 9, p10_before);
    check("any byte but 0 is an open wait", compared(BOARD, BOARD, CHANGES) == 0 && says("wait\tclosed\n"));
    check("and applied it is closed", applied(BOARD, CHANGES) == 0 && same_board());
}

static void refusals(void)
{
    static const size_t wrong[] = { 0, 1, BOARD - 1, BOARD + 1, CHANGES - 1, CHANGES + 1, SPEECH - 1 };
    int compare = 1, apply = 1, speak = 1, counts = 1;
    unsigned n;
    size_t i;

    p9();
    for (i = 0; i < COUNT(wrong); i++) {
        compare = compare && compared(wrong[i], BOARD, CHANGES) == 9 && compared(BOARD, wrong[i], CHANGES) == 9 && compared(BOARD, BOARD, wrong[i]) == 9;
        lend(&changes, p9_changes, sizeof p9_changes);
        apply = apply && applied(wrong[i], CHANGES) == 9 && applied(BOARD, wrong[i]) == 9;
        speak = speak && spoken(wrong[i], SPEECH) == 9 && spoken(CHANGES, wrong[i]) == 9;
        speak = speak && spoken_in_runs(wrong[i], SPEECH) == 9 && spoken_in_runs(CHANGES, wrong[i]) == 9;
        speak = speak && spoken_whole(wrong[i], SPEECH) == 9 && spoken_whole(BOARD, wrong[i]) == 9;
    }
    check("a wrong length is 9 in comparing", compare);
    check("a wrong length is 9 in applying", apply);
    check("a wrong length is 9 in speaking", speak);
    for (n = 0; n < 256; n++) {
        lent_bytes(&before)[LEVELSPRUCE_BOARD_COUNT] = (uint8_t)n;
        counts = counts && compared(BOARD, BOARD, CHANGES) == (n == 3 ? 0 : 4);
        lent_bytes(&after)[LEVELSPRUCE_BOARD_COUNT] = (uint8_t)n;
        counts = counts && compared(BOARD, BOARD, CHANGES) == (n <= 64 ? 0 : 4);
        lent_bytes(&after)[LEVELSPRUCE_BOARD_COUNT] = 3;
    }
    check("different counts are 4, and counts above 64", counts);
    check("9 comes before 4", compared(BOARD, BOARD - 1, CHANGES) == 9 && compared(BOARD, BOARD, CHANGES - 1) == 9);
    lent_bytes(&changes)[LEVELSPRUCE_CHANGES_COUNT] = 65;
    check("9 comes before 2", applied(BOARD, CHANGES - 1) == 9 && spoken(CHANGES, SPEECH - 1) == 9);
    check("more room for the lines is no fault", (lend(&changes, p9_changes, sizeof p9_changes), spoken(CHANGES, SPEECH + 1) == 0));
}

/* P9's changes with one byte another: applied to P9's board, and spoken. */
static int bent(size_t at, uint8_t byte, int apply, int speak)
{
    board(&before, 3, 0, p9_before);
    lend(&changes, p9_changes, sizeof p9_changes);
    lent_bytes(&changes)[at] = byte;
    return spoken(CHANGES, SPEECH) == speak && spoken_in_runs(CHANGES, SPEECH) == speak && applied(BOARD, CHANGES) == apply;
}

static void unfit(void)
{
    enum { FIRST = LEVELSPRUCE_CHANGES_ROWS, SECOND = FIRST + 5 };

    check("as they are they fit", bent(FIRST, 1, 0, 0));
    check("more than 64 changes", bent(LEVELSPRUCE_CHANGES_COUNT, 65, 2, 2) && bent(LEVELSPRUCE_CHANGES_COUNT, 255, 2, 2));
    check("a change more than were written", bent(LEVELSPRUCE_CHANGES_COUNT, 3, 2, 2));
    check("a slot that the board has not", bent(SECOND + LEVELSPRUCE_CHANGE_SLOT, 3, 2, 0));
    check("a slot that no board has", bent(SECOND + LEVELSPRUCE_CHANGE_SLOT, 64, 2, 2) && bent(SECOND + LEVELSPRUCE_CHANGE_SLOT, 255, 2, 2));
    check("a slot twice", bent(SECOND + LEVELSPRUCE_CHANGE_SLOT, 1, 2, 2));
    check("slots that fall", bent(SECOND + LEVELSPRUCE_CHANGE_SLOT, 0, 2, 2));
    check("an old word that is not the board's", bent(FIRST + LEVELSPRUCE_CHANGE_OLD_WORD, E, 2, 0));
    check("an old number that is not the board's", bent(SECOND + LEVELSPRUCE_CHANGE_OLD_NUMBER, 3, 2, 0));
    check("a change to the same", bent(SECOND + LEVELSPRUCE_CHANGE_NEW_NUMBER, 2, 2, 2));
    check("a wait that closes though none is open", bent(LEVELSPRUCE_CHANGES_WAIT, LEVELSPRUCE_WAIT_CLOSED, 2, 0));
    check("a wait above 2", bent(LEVELSPRUCE_CHANGES_WAIT, 3, 2, 2) && bent(LEVELSPRUCE_CHANGES_WAIT, 255, 2, 2));
    check("a new word with no name is applied, and not spoken", bent(FIRST + LEVELSPRUCE_CHANGE_NEW_WORD, 7, 0, 2));
    check("FIXED is no word of a board", bent(FIRST + LEVELSPRUCE_CHANGE_NEW_WORD, LEVELSPRUCE_WORD_FIXED, 0, 2));
    check("bytes behind the changes are not looked at", bent(SECOND + 5, 77, 0, 0));
    board(&before, 3, 1, p9_before);
    lend(&changes, p9_changes, sizeof p9_changes);
    check("a wait that opens though it is open", applied(BOARD, CHANGES) == 2);
    board(&before, 3, 0, p9_before);
    lent_bytes(&before)[LEVELSPRUCE_BOARD_COUNT] = 65;
    check("a board with a count above 64", applied(BOARD, CHANGES) == 2);
}

/* Every slot changes, and each line is as long as can be. */
static void longest(void)
{
    size_t i;

    board(&before, 0, 1, p9_before);
    board(&after, 0, 0, p9_before);
    lent_bytes(&before)[LEVELSPRUCE_BOARD_COUNT] = lent_bytes(&after)[LEVELSPRUCE_BOARD_COUNT] = LEVELSPRUCE_SLOTS_MOST;
    for (i = 0; i < LEVELSPRUCE_SLOTS_MOST; i++) {
        lent_bytes(&after)[LEVELSPRUCE_BOARD_ROWS + 2 * i] = N;
        lent_bytes(&after)[LEVELSPRUCE_BOARD_ROWS + 2 * i + 1] = 254;
    }
    check("64 changes", compared(BOARD, BOARD, CHANGES) == 0 && lent_bytes(&changes)[LEVELSPRUCE_CHANGES_COUNT] == 64);
    check("the longest lines have ten digits fewer than the room", spoken(CHANGES, SPEECH) == 0 && written == SPEECH - 10);
    check("64 changes applied", applied(BOARD, CHANGES) == 0 && same_board());
    lent_bytes(&after)[LEVELSPRUCE_BOARD_COUNT] = lent_bytes(&before)[LEVELSPRUCE_BOARD_COUNT] = 5;
    noise(lent_bytes(&after) + LEVELSPRUCE_BOARD_ROWS + 10, 118, 3);
    check("rows past the count are not compared", compared(BOARD, BOARD, CHANGES) == 0 && says(""));
}

/* So many slots NORM with numbers from 0 on, and EOS on the last. */
static void carrying(struct lent *l, uint8_t slots)
{
    uint8_t i;

    board(l, 0, 0, p9_before);
    lent_bytes(l)[LEVELSPRUCE_BOARD_COUNT] = LEVELSPRUCE_SLOTS_MOST;
    for (i = 0; i < slots; i++) {
        lent_bytes(l)[LEVELSPRUCE_BOARD_ROWS + 2 * i] = i + 1 < slots ? N : E;
        lent_bytes(l)[LEVELSPRUCE_BOARD_ROWS + 2 * i + 1] = i;
    }
}

/* The row of a slot. */
static void show(struct lent *l, uint8_t slot, uint8_t word, uint8_t number)
{
    lent_bytes(l)[LEVELSPRUCE_BOARD_ROWS + 2 * slot] = word;
    lent_bytes(l)[LEVELSPRUCE_BOARD_ROWS + 2 * slot + 1] = number;
}

static void runs(void)
{
    uint8_t i;

    carrying(&before, 0);
    carrying(&after, 64);
    check("64 slots become active in two lines", runs_say("slots\t0\tto\t62\twas\tIDLE\tnow\tNORM\t0\tto\t62\nslot\t63\twas\tIDLE\t255\tnow\tEOS\t63\n"));
    check("and a whole board of IDLE is one", whole_says("slots\t0\tto\t63\tIDLE\nwait\t0\n"));
    carrying(&before, 64);
    lent_bytes(&after)[LEVELSPRUCE_BOARD_WAIT] = 1;
    show(&after, 0, I, 255);
    for (i = 1; i < 64; i++)
        show(&after, i, i < 63 ? N : E, (uint8_t)(i - 1));
    check("the first of 64 is removed in four lines",
          runs_say("slot\t0\twas\tNORM\t0\tnow\tIDLE\t255\nslots\t1\tto\t62\twas\tNORM\t1\tto\t62\tnow\tNORM\t0\tto\t61\n"
                   "slot\t63\twas\tEOS\t63\tnow\tEOS\t62\nwait\topen\n"));
    check("and a whole board is told so", whole_says("slots\t0\tto\t62\tNORM\t0\tto\t62\nslot\t63\tEOS\t63\nwait\t0\n"));
    carrying(&before, 6);
    carrying(&after, 6);
    show(&after, 1, D, 1);
    show(&after, 3, D, 3);
    show(&after, 4, D, 4);
    check("slots with one between them are no run", runs_say("slot\t1\twas\tNORM\t1\tnow\tDNU\t1\nslots\t3\tto\t4\twas\tNORM\t3\tto\t4\tnow\tDNU\t3\tto\t4\n"));
    check("a board's last slots are IDLE", whole_says("slots\t0\tto\t4\tNORM\t0\tto\t4\nslot\t5\tEOS\t5\nslots\t6\tto\t63\tIDLE\nwait\t0\n"));
    carrying(&before, 3);
    carrying(&after, 3);
    show(&before, 3, I, 63);
    show(&before, 4, I, 63);
    show(&after, 3, D, 9);
    show(&after, 4, D, 8);
    check("numbers that fall are no run", runs_say("slot\t3\twas\tIDLE\t63\tnow\tDNU\t9\nslot\t4\twas\tIDLE\t63\tnow\tDNU\t8\n"));
    show(&after, 4, D, 10);
    check("IDLE with another number than 255 is told with it", runs_say("slots\t3\tto\t4\twas\tIDLE\t63\tnow\tDNU\t9\tto\t10\n"));
    show(&before, 5, 7, 0);
    check("a word with no name is 2 in a whole board", spoken_whole(BOARD, SPEECH) == 2);
    lent_bytes(&before)[LEVELSPRUCE_BOARD_COUNT] = 5;
    check("and past the count it is not looked at", spoken_whole(BOARD, SPEECH) == 0);
    lent_bytes(&before)[LEVELSPRUCE_BOARD_COUNT] = 65;
    check("a count above 64 is 2", spoken_whole(BOARD, SPEECH) == 2);
    check("9 comes before 2 there", spoken_whole(BOARD, SPEECH - 1) == 9);
    lent_bytes(&before)[LEVELSPRUCE_BOARD_COUNT] = 0;
    lent_bytes(&before)[LEVELSPRUCE_BOARD_WAIT] = 7;
    check("a board of no slot has its wait", whole_says("wait\t1\n"));
}

int main(void)
{
    examples();
    refusals();
    unfit();
    longest();
    runs();
    return tally();
}
