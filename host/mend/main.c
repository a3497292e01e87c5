/*
 * mend IN OUT: mends the torn recording IN and writes it to OUT, which must not be there yet. It prints a note for each line
 * that was dropped or altered, and then how many of each there are (docs/MANUAL.md, 'At the desk').
 *
 *   812       H4    2a    2B
 *   dropped   0
 *   restored  1
 *
 * Fields are parted by tabs. Status 0; 1 for a recording that is refused, with the line 'answer 13 line 1' or 'answer 4 line 1', the
 * answer's text behind it, and no OUT; 2 for a file that cannot be read or written, or an OUT that is there.
 */
#define _POSIX_C_SOURCE 200809L
#include <levelspruce.h>

#include <errno.h>
#include <fcntl.h>
#include <stdio.h>
#include <stdlib.h>
#include <string.h>

enum { MENDED = 0, REFUSED = 1, STOPPED = 2 };

/* Ends the program where it cannot go on. */
static void stop(const char *why, const char *file)
{
    fflush(stdout);
    fprintf(stderr, "mend: %s '%s'\n", why, file);
    exit(STOPPED);
}

/* Room for so many bytes, and one at least. */
static uint8_t *room_for(size_t bytes, uint8_t *before)
{
    uint8_t *room = realloc(before, bytes == 0 ? 1 : bytes);

    if (room == NULL) {
        fputs("mend: there is no memory for this recording\n", stderr);
        exit(STOPPED);
    }
    return room;
}

/* The whole of a file. */
static uint8_t *read_whole(const char *name, size_t *length)
{
    FILE *file = fopen(name, "rb");
    size_t room = 65536, got;
    uint8_t *bytes = room_for(room, NULL);

    if (file == NULL)
        stop("cannot read the file", name);
    *length = 0;
    while ((got = fread(bytes + *length, 1, room - *length, file)) > 0) {
        *length += got;
        if (*length == room)
            bytes = room_for(room *= 2, bytes);
    }
    if (ferror(file) || fclose(file) != 0)
        stop("cannot read the file", name);
    return bytes;
}

/* A file that nobody has made before. */
static FILE *make(const char *name)
{
    int fd = open(name, O_WRONLY | O_CREAT | O_EXCL, 0666);
    FILE *file = fd < 0 ? NULL : fdopen(fd, "wb");

    if (file == NULL)
        stop(errno == EEXIST ? "writes over no file, and there is one named" : "cannot write the file", name);
    return file;
}

/* Ends the program, and leaves no file that is not whole. */
static void stop_without(const char *out, const char *why, const char *file)
{
    remove(out);
    stop(why, file);
}

static void write_whole(FILE *file, const char *name, const uint8_t *bytes, size_t length)
{
    int written = fwrite(bytes, 1, length, file) == length;

    if (fclose(file) != 0 || !written)
        stop_without(name, "cannot write the file", name);
}

/* How many notes there are of a field. */
static unsigned long noted(const uint8_t *notes, size_t length, const char *field)
{
    const uint8_t *at = notes, *end = notes + length;
    size_t n = strlen(field);
    unsigned long count = 0;

    while (at < end) {
        const uint8_t *tab = memchr(at, '\t', (size_t)(end - at));
        const uint8_t *line_end = memchr(at, '\n', (size_t)(end - at));

        count += memcmp(tab + 1, field, n) == 0 && tab[1 + n] == '\t';
        at = line_end + 1;
    }
    return count;
}

int main(int argc, char **argv)
{
    size_t length, mended_length, notes_length;
    uint8_t *recording, *mended, *notes;
    uint8_t answer;
    FILE *out;

    if (argc != 3) {
        fputs("mend: wants two files, the recording and the one to write\n", stderr);
        return STOPPED;
    }
    recording = read_whole(argv[1], &length);
    answer = levelspruce_mend_lengths(recording, length, &mended_length, &notes_length);
    if (answer != LEVELSPRUCE_ANSWER_DONE) {
        printf("answer\t%d\tline\t1\t%s\n", answer, levelspruce_answer_text(answer));
        return fflush(stdout) == 0 ? REFUSED : STOPPED;
    }
    mended = room_for(mended_length, NULL);
    notes = room_for(notes_length, NULL);
    out = make(argv[2]);
    if (levelspruce_mend(recording, length, mended, mended_length, notes, notes_length) != LEVELSPRUCE_ANSWER_DONE)
        stop_without(argv[2], "cannot mend the file", argv[1]);
    /* what was altered is said before there is a recording in which it is */
    if (fwrite(notes, 1, notes_length, stdout) != notes_length || fflush(stdout) != 0)
        stop_without(argv[2], "cannot print the notes of", argv[1]);
    write_whole(out, argv[2], mended, mended_length);
    printf("dropped\t%lu\nrestored\t%lu\n", noted(notes, notes_length, "line"), noted(notes, notes_length, "H4"));
    if (fflush(stdout) != 0)
        stop("cannot print what was done to", argv[1]);
    free(notes);
    free(mended);
    free(recording);
    return MENDED;
}
