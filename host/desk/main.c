/*
 * desk FILE..: runs a recording again (docs/MANUAL.md, 'At the desk'), whose parts are these files in order, - being standard input. It lends
 * what the first line asks for, prints what the receiver reports, and draws together what is alike:
 *
 *   epoch   24  held  bytes  0     line   1153  cause  an active port lacks a frame  port  1
 *   epochs  25  to  60  sure  bytes  1024  lines  1185  to  2305  count  36
 *   port    1   FAIL  1
 *   answer  13  line  77  malformed
 *
 * A line with a count stands for so many, whose epochs follow one another and whose lines lie evenly from the first to the last. At the
 * end it says how many epochs were sure, doubtful and held, and by which cause, how often each port changed, and how many lines were
 * malformed.
 *
 * Fields are parted by tabs. Status 0; 1 where a line was refused; 2 for a file that cannot be read, or an output that cannot be written.
 */
#include <levelspruce.h>

#include <stdio.h>
#include <stdlib.h>
#include <string.h>

#include "drawing.h"

enum { DONE = 0, REFUSED = 1, STOPPED = 2 };

/* More than a line can have, so that a line that does not end in it is too long. */
static uint8_t text[1 << 16];
static size_t length, at; /* of the text that is there, and how far it has come */

static uint8_t replay[LEVELSPRUCE_REPLAY_BYTES], rows[LEVELSPRUCE_RECEIVER_ROWS(LEVELSPRUCE_PORTS_MOST)][LEVELSPRUCE_ROW_BYTES];
static uint8_t *store, *out, said[LEVELSPRUCE_REPLAY_ROOM];
static size_t store_length, out_length;
static int begun;

/* Ends the program where it cannot go on. */
static void stop(const char *why, const char *name)
{
    drawn();
    fflush(stdout);
    fprintf(stderr, name == NULL ? "desk: %s\n" : "desk: %s '%s'\n", why, name);
    exit(STOPPED);
}

/* Room for so many bytes, and one at least. */
static uint8_t *room_for(size_t bytes)
{
    uint8_t *room = malloc(bytes == 0 ? 1 : bytes);

    if (room == NULL)
        stop("there is no memory for this group's store", NULL);
    return room;
}

/* Lends what the first line asks for. Of one that is refused that is nothing, and the first turn says why. */
static void begin(void)
{
    if (levelspruce_replay_lengths(text, length, &store_length, &out_length) != LEVELSPRUCE_ANSWER_DONE)
        store_length = out_length = 0;
    store = room_for(store_length);
    out = room_for(out_length);
    if (levelspruce_replay_begin(replay, sizeof replay) != LEVELSPRUCE_ANSWER_DONE)
        stop("the beginning was refused", NULL);
    begun = 1;
}

/* The lines of one turn. */
static void take(const uint8_t *lines, size_t written)
{
    const uint8_t *end = lines + written, *next;

    for (; lines < end; lines = next + 1) {
        next = memchr(lines, '\n', (size_t)(end - lines));
        draw((const char *)lines, (size_t)(next - lines));
    }
}

/* Turns until more text is wanted. What is left of it stands at the front then. */
static void run_text(uint32_t last)
{
    size_t written = 0;
    uint8_t wants = 0;

    while (!wants) {
        if (levelspruce_replay_turn(replay, sizeof replay, text, length, &at, last, rows, sizeof rows / sizeof *rows, store, store_length, out, out_length,
                                    said, sizeof said, &written, &wants)
            != LEVELSPRUCE_ANSWER_DONE)
            stop("a turn was refused", NULL);
        take(said, written);
    }
    memmove(text, text + at, length - at);
    length -= at;
    at = 0;
}

/* A part of the recording; its last line may lack its end. */
static void run_part(const char *name)
{
    FILE *file = strcmp(name, "-") == 0 ? stdin : fopen(name, "rb");
    size_t got;

    if (file == NULL)
        stop("cannot read the file", name);
    do {
        got = fread(text + length, 1, sizeof text - length, file);
        length += got;
        if (!begun && length > 0)
            begin();
        if (begun)
            run_text(got == 0);
    } while (got > 0);
    if (ferror(file) || (file != stdin && fclose(file) != 0))
        stop("cannot read the file", name);
}

static void print_mark(const char *mark, unsigned long many, const unsigned long *by_cause)
{
    printf("%s\t%lu\n", mark, many);
    for (uint32_t cause = 0; cause < CAUSES; cause++)
        if (by_cause[cause] > 0)
            printf("%s\tcause\t%s\t%lu\n", mark, levelspruce_cause_text(cause), by_cause[cause]);
}

static void print_counts(const struct counts *counts)
{
    printf("sure\t%lu\n", counts->sure);
    print_mark("doubtful", counts->doubtful, counts->doubtful_by);
    print_mark("held", counts->held, counts->held_by);
    for (size_t port = 0; port < LEVELSPRUCE_PORTS_MOST; port++)
        if (counts->changes[port] > 0)
            printf("port\t%lu\tchanges\t%lu\n", (unsigned long)port, counts->changes[port]);
    printf("malformed\t%lu\n", counts->malformed);
}

int main(int argc, char **argv)
{
    const struct counts *counts;

    if (argc < 2) {
        fputs("desk: wants the files of a recording\n", stderr);
        return STOPPED;
    }
    for (int i = 1; i < argc; i++)
        run_part(argv[i]);
    counts = drawn();
    print_counts(counts);
    if (fflush(stdout) != 0 || ferror(stdout)) {
        fputs("desk: cannot print what was replayed\n", stderr);
        return STOPPED;
    }
    free(store);
    free(out);
    return counts->refused > 0 ? REFUSED : DONE;
}
