#include "receiving.h"

#include <stdlib.h>
#include <string.h>

#include "says.h"

/* A line of a recording: port, H4, flag and payload, in the order in which frames are handed over. */
static void record_line(const struct recording *r, uint32_t port, int failed, uint8_t h4, const uint8_t *payload)
{
    size_t i;

    if (r->to == NULL)
        return;
    fprintf(r->to, "%lu\t%02X\t%d\t", (unsigned long)port, (unsigned)h4, failed);
    for (i = 0; i < r->payload; i++)
        fprintf(r->to, "%02X", (unsigned)payload[i]);
    putc('\n', r->to);
}

static void record_frame(const struct receiving *r, uint32_t port, int failed, uint8_t h4, const uint8_t *payload)
{
    size_t i;

    for (i = 0; i < sizeof r->recordings / sizeof *r->recordings; i++)
        record_line(&r->recordings[i], port, failed, h4, payload);
}

/* A list of a recording's first line: the number of every port, where it is not 0. */
static void record_times(const struct recording *r, const char *name, uint32_t ports, uint32_t time)
{
    uint32_t port;

    if (time == 0)
        return;
    fprintf(r->to, "\t%s", name);
    for (port = 0; port < ports; port++)
        fprintf(r->to, "\t%lu", (unsigned long)time);
}

static void record_settings(const struct recording *r, const struct choices *c)
{
    fprintf(r->to, "%lu\t%lu\t%lu", (unsigned long)c->slots, (unsigned long)r->payload, (unsigned long)c->window);
    if (c->fixed)
        fputs("\tkind\tFIXED", r->to);
    if (c->vc12)
        fputs("\tkind\tVC12", r->to);
    record_times(r, "hold-off", c->slots, c->hold_off);
    record_times(r, "wait-to-restore", c->slots, c->restore);
    putc('\n', r->to);
}

/* Begins a recording with so many bytes of each payload, where a file is named. -1 where it cannot be written. */
static int record_to(struct recording *r, const char *file, size_t payload, const struct choices *c)
{
    r->payload = payload;
    if (file == NULL)
        return 0;
    r->to = fopen(file, "w");
    if (r->to == NULL)
        return -1;
    record_settings(r, c);
    return 0;
}

/* 0, or -1 where it could not be written whole. */
static int record_end(struct recording *r)
{
    int written = r->to == NULL || (fflush(r->to) == 0 && !ferror(r->to));

    if (r->to != NULL)
        written = fclose(r->to) == 0 && written;
    return written ? 0 : -1;
}

/* All ports have the same times. */
static void start(struct receiving *r, const struct choices *c)
{
    uint32_t hold_off[LINES_MOST], restore[LINES_MOST], port;

    for (port = 0; port < c->slots; port++) {
        hold_off[port] = c->hold_off;
        restore[port] = c->restore;
    }
    must(levelspruce_receiver_start_as(c->kind, c->slots, c->payload, c->window, r->store_bytes, hold_off, c->slots, restore, c->slots, r->state, r->rows),
         "levelspruce_receiver_start_as");
}

int receiving_open(struct receiving *r, const struct choices *c)
{
    memset(r, 0, sizeof *r);
    r->ports = c->slots;
    r->payload = c->payload;
    r->fixed = c->fixed;
    r->rows = LEVELSPRUCE_RECEIVER_ROWS(c->slots);
    r->store_bytes = LEVELSPRUCE_STORE_BYTES(c->slots, c->payload, c->window);
    r->out_bytes = c->vc12 ? LEVELSPRUCE_OUTPUT_BYTES_VC12(c->slots) : LEVELSPRUCE_OUTPUT_BYTES(c->slots, c->payload);
    r->state = malloc(r->rows * sizeof r->state[0]);
    r->before = malloc(r->rows * sizeof r->before[0]);
    r->store = malloc(r->store_bytes);
    r->out = malloc(r->out_bytes);
    r->nothing = calloc(r->payload, 1);
    if (r->state == NULL || r->before == NULL || r->store == NULL || r->out == NULL || r->nothing == NULL)
        return -1;
    /* marks and states do not go by the payload, so one byte of it is enough to replay them */
    if (record_to(&r->recordings[0], c->record, r->payload, c) != 0 || record_to(&r->recordings[1], c->heads, 1, c) != 0)
        return -2;
    start(r, c);
    return 0;
}

int receiving_frame(struct receiving *r, uint32_t port, uint8_t h4, const uint8_t *payload)
{
    uint8_t answer = levelspruce_receiver_frame(r->state, r->rows, port, 0, h4, payload, r->payload, r->store, r->store_bytes);

    /* A frame that is handed again is recorded once. */
    if (answer == LEVELSPRUCE_ANSWER_OUTSIDE)
        return 0;
    record_frame(r, port, 0, h4, payload);
    /* A port that is not in step yet, or no more, is nothing to stop for: the next frames bring it back. */
    if (answer != LEVELSPRUCE_ANSWER_STEP)
        must(answer, "levelspruce_receiver_frame");
    return 1;
}

void receiving_failed(struct receiving *r, uint32_t port)
{
    uint8_t answer = levelspruce_receiver_frame(r->state, r->rows, port, 1, 0, r->nothing, r->payload, r->store, r->store_bytes);

    record_frame(r, port, 1, 0, r->nothing);
    if (answer != LEVELSPRUCE_ANSWER_FAILED)
        must(answer, "levelspruce_receiver_frame");
}

/* Whether the packet that rules a port is whole and good, and under that a word that carries bytes, or also DNU. Without LCAS all carry. */
static int has_word(const uint8_t *seen, int fixed, int or_dnu)
{
    uint8_t word = seen[LEVELSPRUCE_SEEN_WORD];

    return seen[LEVELSPRUCE_SEEN_WHOLE] && seen[LEVELSPRUCE_SEEN_ANSWER] == LEVELSPRUCE_ANSWER_DONE && !seen[LEVELSPRUCE_SEEN_OTHER]
        && (fixed || word == LEVELSPRUCE_WORD_NORM || word == LEVELSPRUCE_WORD_EOS || (or_dnu && word == LEVELSPRUCE_WORD_DNU));
}

/* Whether another port has the number of this one, and both are active or DNU. */
static int shares_number(const struct receiving *r, const uint8_t (*seen)[LEVELSPRUCE_SEEN_BYTES], uint32_t port)
{
    uint32_t other;

    for (other = 0; other < r->ports; other++)
        if (other != port && has_word(seen[port], r->fixed, 1) && has_word(seen[other], r->fixed, 1)
            && seen[port][LEVELSPRUCE_SEEN_NUMBER] == seen[other][LEVELSPRUCE_SEEN_NUMBER])
            return 1;
    return 0;
}

/* Whether a cause applies to a port. GID, EOS and numbers that leave a gap are of the group, and of no one port. */
static int is_cause_of(const struct receiving *r, uint8_t cause, const uint8_t (*seen)[LEVELSPRUCE_SEEN_BYTES], uint32_t port)
{
    switch (cause) {
    case LEVELSPRUCE_CAUSE_REFUSED:
        return seen[port][LEVELSPRUCE_SEEN_WHOLE] && (seen[port][LEVELSPRUCE_SEEN_ANSWER] != LEVELSPRUCE_ANSWER_DONE || seen[port][LEVELSPRUCE_SEEN_OTHER]);
    case LEVELSPRUCE_CAUSE_LACKING: return has_word(seen[port], r->fixed, 0) && !seen[port][LEVELSPRUCE_SEEN_HERE];
    case LEVELSPRUCE_CAUSE_REPEATED: return shares_number(r, seen, port);
    case LEVELSPRUCE_CAUSE_UNSEEN: return !seen[port][LEVELSPRUCE_SEEN_WHOLE];
    default: return 0;
    }
}

/* The ports to which it applies, by what was seen before the fetch. */
static uint64_t ports_of_cause(const struct receiving *r, uint8_t cause)
{
    uint8_t seen[LINES_MOST][LEVELSPRUCE_SEEN_BYTES];
    uint64_t ports = 0;
    uint32_t port;

    if (cause == LEVELSPRUCE_CAUSE_NONE)
        return 0;
    must(levelspruce_receiver_seen((const uint8_t(*)[LEVELSPRUCE_ROW_BYTES])r->before, r->rows, seen, r->ports), "levelspruce_receiver_seen");
    for (port = 0; port < r->ports; port++)
        if (is_cause_of(r, cause, (const uint8_t(*)[LEVELSPRUCE_SEEN_BYTES])seen, port))
            ports |= (uint64_t)1 << port;
    return ports;
}

int receiving_fetch(struct receiving *r, struct report *report)
{
    uint8_t record[LEVELSPRUCE_REPORT_BYTES];
    const uint8_t *count = record + LEVELSPRUCE_REPORT_COUNT;

    memcpy(r->before, r->state, r->rows * sizeof r->state[0]);
    must(levelspruce_receiver_fetch(r->state, r->rows, r->store, r->store_bytes, r->out, r->out_bytes, record, sizeof record), "levelspruce_receiver_fetch");
    report->mark = record[LEVELSPRUCE_REPORT_MARK];
    report->number = record[LEVELSPRUCE_REPORT_EPOCH];
    report->x = record[LEVELSPRUCE_REPORT_X];
    report->cause = record[LEVELSPRUCE_REPORT_CAUSE];
    report->ports = ports_of_cause(r, report->cause);
    report->bytes = (size_t)count[0] << 24 | (size_t)count[1] << 16 | (size_t)count[2] << 8 | count[3];
    return report->mark != LEVELSPRUCE_MARK_NONE;
}

void receiving_ports(const struct receiving *r, uint8_t (*ports)[LEVELSPRUCE_PORT_BYTES])
{
    must(levelspruce_receiver_ports((const uint8_t(*)[LEVELSPRUCE_ROW_BYTES])r->state, r->rows, ports, r->ports), "levelspruce_receiver_ports");
}

void receiving_behind(const struct receiving *r, uint32_t *behind)
{
    must(levelspruce_receiver_behind((const uint8_t(*)[LEVELSPRUCE_ROW_BYTES])r->state, r->rows, behind, r->ports), "levelspruce_receiver_behind");
}

int receiving_has_begun(const struct receiving *r)
{
    uint8_t ports[LINES_MOST][LEVELSPRUCE_PORT_BYTES];
    uint32_t port;

    receiving_ports(r, ports);
    for (port = 0; port < r->ports; port++)
        if (ports[port][LEVELSPRUCE_PORT_READABLE])
            return 1;
    return 0;
}

void receiving_reply(const struct receiving *r, uint8_t number, uint8_t *reply)
{
    must(levelspruce_receiver_reply((const uint8_t(*)[LEVELSPRUCE_ROW_BYTES])r->state, r->rows, number, reply, LEVELSPRUCE_REPLY_BYTES),
         "levelspruce_receiver_reply");
}

int receiving_close(struct receiving *r)
{
    int whole = record_end(&r->recordings[0]), heads = record_end(&r->recordings[1]);

    free(r->state);
    free(r->before);
    free(r->store);
    free(r->out);
    free(r->nothing);
    return whole == 0 && heads == 0 ? 0 : -1;
}
