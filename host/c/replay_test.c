/*
 * Tests of a replay over the archive: what a first line asks for, turns on a recording worked out by hand, every refusal alone and in its
 * order, that a refusal changes no byte, that a recording cut anywhere prints the same, and a group that is larger than the replay program's.
 */
#include <levelspruce.h>

#include <stdio.h>
#include <stdlib.h>
#include <string.h>

#include "check.h"

enum { LENT_MOST = 6000 };
#include "lent.h"

enum { ROWS = LEVELSPRUCE_RECEIVER_ROWS(LEVELSPRUCE_PORTS_MOST), SAID_MOST = 1 << 16 };

static struct lent state, rows, store, out, said;
static char printed[SAID_MOST];
static size_t printed_length;

/* Spaces stand for tabs. */
static size_t tabbed(const char *text, uint8_t *bytes)
{
    size_t i, n = strlen(text);

    for (i = 0; i < n; i++)
        bytes[i] = text[i] == ' ' ? '\t' : (uint8_t)text[i];
    return n;
}

/* The lengths of this first line. */
static int asks(const char *first, uint8_t answer, size_t store_bytes, size_t out_bytes)
{
    uint8_t text[256];
    size_t length = tabbed(first, text), s = 5, o = 6;

    return levelspruce_replay_lengths(text, length, &s, &o) == answer && s == (answer == 0 ? store_bytes : 5) && o == (answer == 0 ? out_bytes : 6);
}

static void lend_all(void)
{
    lend(&state, NULL, 0);
    lend(&rows, NULL, 0);
    lend(&store, NULL, 0);
    lend(&out, NULL, 0);
    lend(&said, NULL, 0);
}

static uint8_t turn(const uint8_t *text, size_t length, size_t *at, uint32_t last, size_t store_bytes, size_t out_bytes, size_t *written, uint8_t *wants)
{
    return levelspruce_replay_turn(lent_bytes(&state), LEVELSPRUCE_REPLAY_BYTES, text, length, at, last, (uint8_t(*)[LEVELSPRUCE_ROW_BYTES])lent_bytes(&rows),
                                   ROWS, lent_bytes(&store), store_bytes, lent_bytes(&out), out_bytes, lent_bytes(&said), LEVELSPRUCE_REPLAY_ROOM, written,
                                   wants);
}

/* Turns until more text is wanted; what they print is kept. */
static int run(const uint8_t *text, size_t length, uint32_t last, size_t store_bytes, size_t out_bytes, size_t *at)
{
    size_t written;
    uint8_t wants = 0;

    while (!wants) {
        if (turn(text, length, at, last, store_bytes, out_bytes, &written, &wants) != LEVELSPRUCE_ANSWER_DONE || written > LEVELSPRUCE_REPLAY_ROOM
            || printed_length + written > SAID_MOST)
            return 0;
        memcpy(printed + printed_length, lent_bytes(&said), written);
        printed_length += written;
    }
    return *at <= length;
}

static int begin(void)
{
    lend_all();
    printed_length = 0;
    return levelspruce_replay_begin(lent_bytes(&state), LEVELSPRUCE_REPLAY_BYTES) == LEVELSPRUCE_ANSWER_DONE && stands(&state, LEVELSPRUCE_REPLAY_BYTES);
}

/* A recording is printed so, lent in one piece and cut in two at any of its bytes. */
static int prints(const uint8_t *text, size_t length, const char *wanted)
{
    size_t store_bytes = 0, out_bytes = 0, cut, n = strlen(wanted), i;
    int held = 1;

    if (levelspruce_replay_lengths(text, length, &store_bytes, &out_bytes) != LEVELSPRUCE_ANSWER_DONE)
        store_bytes = out_bytes = 0;
    for (cut = 0; held && cut <= length; cut = cut < 120 || cut + 97 > length ? cut + 1 : cut + 97) {
        size_t at = 0, from;

        held = begin() && run(text, cut, 0, store_bytes, out_bytes, &at);
        from = at;
        at = 0;
        held = held && run(text + from, length - from, 1, store_bytes, out_bytes, &at) && at == length - from && printed_length == n;
        for (i = 0; held && i < n; i++)
            held = printed[i] == (wanted[i] == ' ' ? '\t' : wanted[i]);
    }
    return held && stands(&store, store_bytes) && stands(&out, out_bytes) && stands(&said, LEVELSPRUCE_REPLAY_ROOM)
        && stands(&rows, (size_t)ROWS * LEVELSPRUCE_ROW_BYTES) && stands(&state, LEVELSPRUCE_REPLAY_BYTES);
}

static int prints_text(const char *recording, const char *wanted)
{
    static uint8_t text[LENT_MOST];
    size_t length = tabbed(recording, text);

    return prints(text, length, wanted);
}

/* A fixed group of one port with P 1 and W 16: the port is in step after 32 frames and joins with the next epoch, and from then on each
 * epoch is reported when its last frame has come. */
static int reports(void)
{
    static uint8_t text[LENT_MOST];
    static char recording[LENT_MOST];
    int n, at = sprintf(recording, "1 1 16 kind FIXED\n");
    size_t length;

    for (n = 0; n < 80; n++)
        at += sprintf(recording + at, "0 %X%X 0 AA\n", (unsigned)(n % 16 == 1 ? n / 16 : 0), (unsigned)(n % 16));
    length = tabbed(recording, text);
    return prints(text, length, "epoch 4 sure bytes 16 line 73\nport 0 OK 0\n");
}

/* 9, and nothing is changed. */
static int refuses(size_t state_bytes, size_t at, size_t row_count, size_t store_bytes, size_t out_bytes, size_t room, int started)
{
    static const char text[] = "1\t1\t16\nx\n";
    size_t place = at, written = 7, first = 0;
    uint8_t wants = 8, answer;
    struct lent *const lents[] = { &state, &rows, &store, &out, &said };
    size_t i;
    int held = begin();

    if (started)
        held = held && turn((const uint8_t *)text, sizeof text - 1, &first, 0, 32, 16, &written, &wants) == LEVELSPRUCE_ANSWER_DONE && first == 7
            && written == 0 && wants == 0;
    written = 7;
    wants = 8;
    for (i = 0; i < COUNT(lents); i++)
        remember(lents[i]);
    answer = levelspruce_replay_turn(lent_bytes(&state), state_bytes, (const uint8_t *)text, sizeof text - 1, &place, 0,
                                     (uint8_t(*)[LEVELSPRUCE_ROW_BYTES])lent_bytes(&rows), row_count, lent_bytes(&store), store_bytes, lent_bytes(&out),
                                     out_bytes, lent_bytes(&said), room, &written, &wants);
    for (i = 0; i < COUNT(lents); i++)
        held = held && untouched(lents[i]);
    return held && answer == LEVELSPRUCE_ANSWER_LENGTH && place == at && written == 7 && wants == 8;
}

/* Six VC-3 ports with W 64 ask for a store of 290,688 bytes, which the replay program does not lend. */
static int large(void)
{
    static const uint8_t first[] = "6\t756\t64\nx\n";
    size_t store_bytes, out_bytes, at = 0, written = 0;
    uint8_t wants = 0, *lent, *output, row[ROWS][LEVELSPRUCE_ROW_BYTES], kept[LEVELSPRUCE_REPLAY_BYTES], room[LEVELSPRUCE_REPLAY_ROOM];
    int held, k;

    if (levelspruce_replay_lengths(first, sizeof first - 1, &store_bytes, &out_bytes) != LEVELSPRUCE_ANSWER_DONE || store_bytes != 290688 || out_bytes != 72576)
        return 0;
    lent = malloc(store_bytes);
    output = malloc(out_bytes);
    held = lent != NULL && output != NULL;
    for (k = 0; held && k < 2; k++) {
        /* one byte of store less, and none */
        at = 0;
        held = levelspruce_replay_begin(kept, sizeof kept) == LEVELSPRUCE_ANSWER_DONE
            && levelspruce_replay_turn(kept, sizeof kept, first, sizeof first - 1, &at, 0, row, ROWS, lent, store_bytes - 1 + (size_t)k, output, out_bytes,
                                       room, sizeof room, &written, &wants)
                   == LEVELSPRUCE_ANSWER_DONE
            && (k == 1 ? at == 9 && written == 0 : at == 0 && written == 16 && memcmp(room, "answer\t4\tline\t1\n", 16) == 0);
    }
    held = held
        && levelspruce_replay_turn(kept, sizeof kept, first, sizeof first - 1, &at, 0, row, ROWS, lent, store_bytes, output, out_bytes, room, sizeof room,
                                   &written, &wants)
               == LEVELSPRUCE_ANSWER_DONE
        && at == 11 && written == 17 && memcmp(room, "answer\t13\tline\t2\n", 17) == 0;
    free(lent);
    free(output);
    return held;
}

static int begins(void)
{
    size_t n;
    int held = 1;

    for (n = 0; n < 40; n++) {
        uint8_t answer;

        lend(&state, NULL, 0);
        answer = levelspruce_replay_begin(lent_bytes(&state), n);
        held = held && answer == (n == LEVELSPRUCE_REPLAY_BYTES ? LEVELSPRUCE_ANSWER_DONE : LEVELSPRUCE_ANSWER_LENGTH)
            && stands(&state, n == LEVELSPRUCE_REPLAY_BYTES ? n : 0);
    }
    return held;
}

int main(void)
{
    check("what a first line asks for", asks("1 1 16", 0, 32, 16) && asks("1 1 16\nx", 0, 32, 16) && asks("6 756 64\n", 0, 290688, 72576)
                                            && asks("2 136 32 kind VC12\n", 0, 8768, 8704) && asks("64 2340 2048\n", 0, 306839552, 2396160));
    check("13: a first line that cannot be read", asks("x\n", 13, 0, 0) && asks("", 13, 0, 0) && asks("\n1 1 16\n", 13, 0, 0) && asks("1 1\n", 13, 0, 0)
                                                      && asks("2 1 16 hold-off 1 5001 7\n", 13, 0, 0));
    check("4: settings out of range",
          asks("65 1 16\n", 4, 0, 0) && asks("1 1 15\n", 4, 0, 0) && asks("2 1 16 hold-off 1 5001\n", 4, 0, 0) && asks("1 135 32 kind VC12\n", 4, 0, 0));
    check("9: a beginning with another length", begins());
    check("settings alone print nothing", prints_text("1 1 16\n", "") && prints_text("1 1 16", "") && prints_text("", ""));
    check("lines that are malformed", prints_text("1 1 16\nx\n0 05 0 AB\ny", "answer 13 line 2\nanswer 13 line 4\n"));
    check("a first line that is refused ends it", prints_text("x\n1 1 16\ny\n", "answer 13 line 1\n") && prints_text("65 1 16\ny\n", "answer 4 line 1\n"));
    check("a fixed group's first report", reports());
    check("9: each length that is wrong, and a place behind the end",
          refuses(16, 0, ROWS, 32, 16, LEVELSPRUCE_REPLAY_ROOM, 0) && refuses(18, 0, ROWS, 32, 16, LEVELSPRUCE_REPLAY_ROOM, 0)
              && refuses(17, 10, ROWS, 32, 16, LEVELSPRUCE_REPLAY_ROOM, 0) && refuses(17, SIZE_MAX, ROWS, 32, 16, LEVELSPRUCE_REPLAY_ROOM, 0)
              && refuses(17, 0, ROWS - 1, 32, 16, LEVELSPRUCE_REPLAY_ROOM, 0) && refuses(17, 0, ROWS, 32, 16, LEVELSPRUCE_REPLAY_ROOM - 1, 0)
              && refuses(17, 7, LEVELSPRUCE_RECEIVER_ROWS(1) - 1, 32, 16, LEVELSPRUCE_REPLAY_ROOM, 1)
              && refuses(17, 7, ROWS, 31, 16, LEVELSPRUCE_REPLAY_ROOM, 1) && refuses(17, 7, ROWS, 32, 15, LEVELSPRUCE_REPLAY_ROOM, 1)
              && refuses(17, 7, ROWS, 32, 16, LEVELSPRUCE_REPLAY_ROOM - 1, 1));
    check("a group that is too large for the replay program", large());
    return tally();
}
