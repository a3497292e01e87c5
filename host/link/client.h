/* The client: the bytes that go in, and whether those that come out are the same. */
#ifndef CLIENT_H
#define CLIENT_H

#include <stddef.h>
#include <stdint.h>

#include "choices.h"

struct client {
    uint8_t *bytes;
    size_t length;
    int repeats; /* the built-in text, over and over; a file is followed by zeros */
    int cut;     /* the file has more bytes than these */
    uint64_t sent;
    uint8_t *came, *has_come; /* bytes of the text or file that came out sure, and which did */
};

/* The file that was chosen, or the built-in text. -1 where it cannot be read: then a line on standard error says so. */
int client_open(struct client *c, const struct choices *choices);

/* Whether all of a file is sent. */
int client_is_sent(const struct client *c);

/* Takes the next bytes to send. */
void client_take(struct client *c, uint8_t *bytes, size_t count);

/* How many of the bytes from there are the client's own, and not the zeros behind a file. */
size_t client_own(const struct client *c, uint64_t from, size_t count);

/* Whether these bytes are those that were sent from there on. */
int client_sent(const struct client *c, uint64_t from, const uint8_t *bytes, size_t count);

/* These bytes came out sure, from there on. */
void client_came(struct client *c, uint64_t from, const uint8_t *bytes, size_t count);

/* Whether each byte of the text or file came out sure at least once. */
int client_all_came(const struct client *c);

void client_close(struct client *c);

#endif
