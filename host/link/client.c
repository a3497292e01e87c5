#include "client.h"

#include <stdio.h>
#include <stdlib.h>
#include <string.h>

#include "text.h"

/* The most bytes of a file whose length is not known beforehand. */
enum { UNKNOWN_MOST = 1 << 26 };

static int no_memory(void)
{
    fprintf(stderr, "link: there is not enough memory for the file\n");
    return -1;
}

static int open_text(struct client *c)
{
    c->length = sizeof built_in_text - 1;
    c->repeats = 1;
    c->bytes = malloc(c->length);
    if (c->bytes == NULL)
        return no_memory();
    memcpy(c->bytes, built_in_text, c->length);
    return 0;
}

static int cannot_read(const char *file)
{
    fprintf(stderr, "link: cannot read the file '%s'\n", file);
    return -1;
}

/* Whether a file's length can be told beforehand: not that of a pipe or of a device. */
static int length_is_known(FILE *from)
{
    int known = fseek(from, 0, SEEK_END) == 0 && ftell(from) > 0;

    rewind(from);
    return known;
}

/* How many bytes of a file are read at most. So many epochs carry no more than that; where it is to be as many epochs as it takes, and
 * the file may have no end, there is a limit. */
static uint64_t most_of(const struct choices *choices, FILE *from)
{
    if (!choices->whole_file)
        return choices->carried;
    return length_is_known(from) ? SIZE_MAX - 1 : UNKNOWN_MOST;
}

/* Reads to the file's end, and not past so many bytes and one more. */
static int read_bytes(struct client *c, FILE *from, uint64_t most)
{
    size_t room = 0, got = 1;

    while (got > 0 && c->length <= most) {
        if (c->length == room) {
            uint8_t *more = realloc(c->bytes, room = 2 * room + 65536);

            if (more == NULL)
                return no_memory();
            c->bytes = more;
        }
        got = fread(c->bytes + c->length, 1, most + 1 - c->length < room - c->length ? (size_t)(most + 1 - c->length) : room - c->length, from);
        c->length += got;
    }
    return 0;
}

static int open_file(struct client *c, const struct choices *choices)
{
    FILE *from = fopen(choices->file, "rb");
    uint64_t most;
    int failed;

    if (from == NULL)
        return cannot_read(choices->file);
    most = most_of(choices, from);
    failed = read_bytes(c, from, most) != 0 ? -1 : ferror(from) ? cannot_read(choices->file) : 0;
    fclose(from);
    c->cut = c->length > most;
    if (failed != 0 || !c->cut)
        return failed;
    c->length = (size_t)most;
    if (!choices->whole_file)
        return 0;
    fprintf(stderr, "link: the file '%s' has more than %d bytes, and its end is not known: --epochs N sends what N epochs carry\n", choices->file,
            UNKNOWN_MOST);
    return -1;
}

int client_open(struct client *c, const struct choices *choices)
{
    memset(c, 0, sizeof *c);
    if ((choices->file == NULL ? open_text(c) : open_file(c, choices)) != 0)
        return -1;
    c->came = malloc(c->length + 1);
    c->has_come = calloc(c->length + 1, 1);
    return c->came == NULL || c->has_come == NULL ? no_memory() : 0;
}

int client_is_sent(const struct client *c)
{
    return c->sent >= c->length;
}

/* How many of the bytes from a place on, count at most, lie one behind the other; *bytes is NULL where they are zeros. */
static size_t run_from(const struct client *c, uint64_t place, size_t count, const uint8_t **bytes)
{
    uint64_t at = c->repeats ? place % c->length : place;

    *bytes = at < c->length ? c->bytes + at : NULL;
    return *bytes != NULL && c->length - at < count ? (size_t)(c->length - at) : count;
}

void client_take(struct client *c, uint8_t *bytes, size_t count)
{
    while (count > 0) {
        const uint8_t *from;
        size_t run = run_from(c, c->sent, count, &from);

        if (from != NULL)
            memcpy(bytes, from, run);
        else
            memset(bytes, 0, run);
        bytes += run;
        count -= run;
        c->sent += run;
    }
}

size_t client_own(const struct client *c, uint64_t from, size_t count)
{
    if (c->repeats || from + count <= c->length)
        return count;
    return from < c->length ? (size_t)(c->length - from) : 0;
}

static int all_zero(const uint8_t *bytes, size_t count)
{
    /* the first is 0, and each is like the one before it */
    return count == 0 || (bytes[0] == 0 && memcmp(bytes, bytes + 1, count - 1) == 0);
}

int client_sent(const struct client *c, uint64_t from, const uint8_t *bytes, size_t count)
{
    while (count > 0) {
        const uint8_t *sent;
        size_t run = run_from(c, from, count, &sent);

        if (sent != NULL ? memcmp(bytes, sent, run) != 0 : !all_zero(bytes, run))
            return 0;
        bytes += run;
        count -= run;
        from += run;
    }
    return 1;
}

void client_came(struct client *c, uint64_t from, const uint8_t *bytes, size_t count)
{
    size_t own = client_own(c, from, count);

    /* of a text that repeats, once is enough */
    if (own > c->length)
        own = c->length;
    while (own > 0) {
        const uint8_t *sent;
        size_t run = run_from(c, from, own, &sent), at = (size_t)(sent - c->bytes);

        memcpy(c->came + at, bytes, run);
        memset(c->has_come + at, 1, run);
        bytes += run;
        own -= run;
        from += run;
    }
}

int client_all_came(const struct client *c)
{
    return !c->cut && memchr(c->has_come, 0, c->length) == NULL;
}

void client_close(struct client *c)
{
    free(c->bytes);
    free(c->came);
    free(c->has_come);
}
