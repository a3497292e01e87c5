/* What came out: the epochs by their marks, and whether each sure byte was right. */
#ifndef TALLY_H
#define TALLY_H

#include <stdio.h>

#include "client.h"
#include "receiving.h"
#include "says.h"
#include "sending.h"

struct tally {
    uint64_t epochs[4], bytes[4]; /* by mark */
    uint64_t doubtful_right;      /* doubtful epochs with the bytes that were sent */
    uint64_t wrong;               /* sure epochs with others */
    FILE *out;                    /* NULL where nothing is to be written */
    int doubtful;                 /* doubtful bytes are written too */
};

/* -1 where the file cannot be written: then a line on standard error says so. */
int tally_open(struct tally *t, const char *out, int doubtful);

/* Compares a report with what its epoch carried, says and counts it, and writes its bytes out. */
void tally_report(struct tally *t, uint64_t epoch, const struct report *report, const uint8_t *bytes, const struct sending *sending, struct client *client,
                  struct says *says);

/* Says the end. The program's exit status: 1 also where a file was to be delivered and not each byte of it was sure. */
int tally_close(struct tally *t, const struct client *client);

#endif
