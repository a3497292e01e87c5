/*
 * An example host: a file or a text crosses a link of one to sixty-four lines.
 *
 * Time is counted in frames, 125 microseconds each on a real card, and 500 of VC-12. In each frame time every slot sends a frame, every line
 * brings one to its port, the receiver is asked for reports, and what the far end replied comes back to the sender.
 */
#include <stdio.h>
#include <string.h>

#include "back.h"
#include "choices.h"
#include "client.h"
#include "damage.h"
#include "files.h"
#include "line.h"
#include "receiving.h"
#include "says.h"
#include "sending.h"
#include "tally.h"

enum { WITH_NOTHING_MOST = 4096 };

/* In parts, since a compiler need not take one string of such a length. */
static const char *const help[] = {
#include "help.h"
};

struct link {
    struct choices choices;
    struct client client;
    struct sending sending;
    struct line lines[LINES_MOST];
    uint32_t slot_of[LINES_MOST]; /* of each port */
    struct receiving receiving;
    uint64_t next_fetch;   /* the frame time before which no report is fetched */
    uint64_t next_epoch;   /* the epoch after the one reported last */
    uint32_t with_nothing; /* the last epochs in a row that carried no byte */
    struct back back;
    struct says says;
    struct tally tally;
};

static int link_open(struct link *l)
{
    struct choices *c = &l->choices;
    uint32_t slot, least_delay = c->delay[0], most_delay = 0;
    int opened;

    if (client_open(&l->client, c) != 0 || tally_open(&l->tally, c->out, c->doubtful) != 0)
        return -1;
    for (slot = 0; slot < c->slots; slot++) {
        l->slot_of[c->port[slot]] = slot;
        if (c->delay[slot] < least_delay)
            least_delay = c->delay[slot];
        if (c->delay[slot] > most_delay)
            most_delay = c->delay[slot];
        if (line_open(&l->lines[slot], c->delay[slot], c->first[slot], c->payload) != 0)
            break;
    }
    opened = slot < c->slots || sending_open(&l->sending, c) != 0 ? -1 : receiving_open(&l->receiving, c);
    if (opened == -2) {
        fprintf(stderr, "link: the recording cannot be written\n");
        return -1;
    }
    if (files_differ(c) != 0)
        return -1;
    if (opened != 0) {
        fprintf(stderr, "link: there is not enough memory for a link of this size\n");
        return -1;
    }
    if (most_delay - least_delay > c->window - c->least)
        fprintf(stderr, "link: the delays differ by more than the window less %lu frames, so receiving may not begin, or bytes may be wrong\n",
                (unsigned long)c->least);
    else if (!c->at_once && most_delay - least_delay + c->late > c->window - c->least)
        fprintf(stderr, "link: --late and the difference of the delays are more than the window less %lu frames, so reports come earlier than that\n",
                (unsigned long)c->least);
    if (!c->fixed)
        back_open(&l->back, c);
    says_link(&l->says, c);
    return 0;
}

/* 0, or -1 where the recording could not be written whole. */
static int link_close(struct link *l)
{
    uint32_t slot;
    int written;

    for (slot = 0; slot < l->choices.slots; slot++)
        line_close(&l->lines[slot]);
    written = receiving_close(&l->receiving);
    sending_close(&l->sending);
    client_close(&l->client);
    return written;
}

/* The epoch that a report's number means: the last one of that number of which a readable port has brought a frame. Every
 * readable port has, and none is as far ahead of a report as the 256 epochs (of VC-12 32) in which numbers go round. */
static uint64_t epoch_of(const struct link *l, uint8_t number)
{
    uint8_t ports[LINES_MOST][LEVELSPRUCE_PORT_BYTES];
    const uint32_t round = l->choices.numbers;
    uint32_t port = 0;
    uint64_t latest;

    receiving_ports(&l->receiving, ports);
    while (port + 1 < l->choices.slots && !ports[port][LEVELSPRUCE_PORT_READABLE])
        port++;
    latest = line_last(&l->lines[l->slot_of[port]]) / l->choices.frames;
    return latest - (latest + l->choices.number + round - number) % round;
}

/* Fetches a report if one is due. */
static int fetch(struct link *l, uint64_t time)
{
    struct report report;
    uint64_t epoch;

    if (!receiving_fetch(&l->receiving, &report))
        return 0;
    epoch = epoch_of(l, report.number);
    tally_report(&l->tally, epoch, &report, l->receiving.out, &l->sending, &l->client, &l->says);
    /* epochs are left out where receiving began anew */
    l->next_fetch = time + l->choices.frames + (epoch == l->next_epoch ? 0 : l->choices.late);
    l->next_epoch = epoch + 1;
    return 1;
}

/*
 * Fetches what is due, at an even pace of one report in an epoch's frames, as a client is clocked out. Each report fetched
 * moves the window on, so a host that fetches as soon as it can moves with the slowest port that it hears: then a slower
 * one that failed comes back behind the window and cannot join any more.
 */
static void fetch_in_time(struct link *l, uint64_t time)
{
    while ((l->choices.at_once || time >= l->next_fetch) && fetch(l, time))
        ;
}

static int has_failed(const struct choices *c, uint32_t port, uint64_t time)
{
    size_t i;

    for (i = 0; i < c->failures.count; i++)
        if (c->failures.each[i].port == port && c->failures.each[i].from <= time && time <= c->failures.each[i].to)
            return 1;
    return 0;
}

/* The bits of the H4 byte of a slot's next frame that its line changes. Until receiving has begun the multiframe's number comes as
 * sent: one wrong nibble of it would keep the port from coming into step. */
static uint8_t damage_now(const struct link *l, uint32_t slot)
{
    uint64_t n = line_number(&l->lines[slot]);
    uint8_t bits = damage(&l->choices, slot, n);

    return bits != 0 && damage_is_of_number(&l->choices, n) && !receiving_has_begun(&l->receiving) ? 0 : bits;
}

/* Hands a frame over: its payload, and its H4 byte behind it. Where it lies outside the window, a report makes room for it: 0 if
 * none is due. */
static int hand(struct link *l, uint32_t port, const uint8_t *frame, uint64_t time)
{
    uint8_t h4 = frame[l->choices.payload] ^ damage_now(l, l->slot_of[port]);

    while (!receiving_frame(&l->receiving, port, h4, frame))
        if (!fetch(l, time))
            return 0;
    return 1;
}

/* What a line brings to its port in a frame time. A frame that could not be handed over stays, and those behind it wait. */
static void bring(struct link *l, uint32_t port, uint64_t time)
{
    struct line *line = &l->lines[l->slot_of[port]];
    int failed = has_failed(&l->choices, port, time);
    const uint8_t *frame;

    if (failed) {
        receiving_failed(&l->receiving, port);
        fetch_in_time(l, time);
    }
    while ((frame = line_next(line, time)) != NULL && (failed || hand(l, port, frame, time))) {
        line_take(line);
        if (!failed)
            fetch_in_time(l, time);
    }
}

/* Both ends start an epoch: the near end's goes out on all lines, the far end's has the reply in it. Without LCAS there is none. */
static void start_epoch(struct link *l, uint64_t epoch)
{
    uint8_t reply[LEVELSPRUCE_REPLY_BYTES];

    sending_start_epoch(&l->sending, epoch, &l->client, &l->says);
    l->with_nothing = l->sending.frame_bytes == 0 ? l->with_nothing + 1 : 0;
    if (l->choices.fixed)
        return;
    receiving_reply(&l->receiving, (uint8_t)(l->choices.number + epoch), reply);
    back_start_epoch(&l->back, reply);
}

static void receive(struct link *l, uint64_t time)
{
    uint8_t ports[LINES_MOST][LEVELSPRUCE_PORT_BYTES], heard[LEVELSPRUCE_HEARD_BYTES], reply[LEVELSPRUCE_REPLY_BYTES];
    uint32_t port;
    uint64_t epoch;

    for (port = 0; port < l->choices.slots; port++)
        bring(l, port, time);
    if (!l->choices.quiet) {
        receiving_ports(&l->receiving, ports);
        receiving_reply(&l->receiving, 0, reply);
        says_ports(&l->says, (const uint8_t(*)[LEVELSPRUCE_PORT_BYTES])ports, reply[LEVELSPRUCE_REPLY_RS_ACK], time);
    }
    while (back_next(&l->back, time, heard, &epoch))
        sending_told(&l->sending, epoch, heard, &l->says);
}

/* Whether another epoch is to be sent. A file that no member carries for long is given up. */
static int goes_on(const struct link *l, uint64_t epoch)
{
    const struct choices *c = &l->choices;

    if (epoch < c->epochs)
        return 1;
    if (!c->whole_file || client_is_sent(&l->client))
        return 0;
    if (l->with_nothing < WITH_NOTHING_MOST)
        return 1;
    fprintf(stderr, "link: for %d epochs no member has carried bytes, so the file is given up\n", WITH_NOTHING_MOST);
    return 0;
}

static int all_empty(const struct link *l)
{
    uint32_t slot;

    for (slot = 0; slot < l->choices.slots; slot++)
        if (!line_is_empty(&l->lines[slot]))
            return 0;
    return 1;
}

/* A file is sent to its end, else so many epochs are. */
static void tell_progress(const struct link *l, uint64_t epoch)
{
    if (l->choices.whole_file)
        says_progress(&l->says, "bytes", client_is_sent(&l->client) ? l->client.length : l->client.sent, l->client.length);
    else
        says_progress(&l->says, "epoch", epoch, l->choices.epochs);
}

/* Told while every line brings its frames: behind the last one sent, the slower ones catch up. */
static void tell_behind(struct link *l)
{
    uint32_t behind[LINES_MOST];

    receiving_behind(&l->receiving, behind);
    says_behind(&l->says, behind);
}

static void run(struct link *l)
{
    const uint32_t frames = l->choices.frames;
    uint64_t time, last;

    for (time = 0; time % frames != 0 || goes_on(l, time / frames); time++) {
        if (time % frames == 0) {
            start_epoch(l, time / frames);
            tell_progress(l, time / frames);
        }
        sending_frame(&l->sending, time, &l->client, l->lines);
        receive(l, time);
        if (l->choices.behind)
            tell_behind(l);
    }
    /* what is still on its way; lines that the receiver no longer takes from are left */
    for (last = time + DELAY_MOST + LEVELSPRUCE_WINDOW_MOST; time < last && !all_empty(l); time++)
        receive(l, time);
    while (fetch(l, time))
        ;
}

int main(int count, char **words)
{
    static struct link l;
    size_t part;
    int status;

    if (choices_read(&l.choices, count - 1, words + 1) != 0)
        return 2;
    for (part = 0; l.choices.help && part < sizeof help / sizeof *help; part++)
        fputs(help[part], stdout);
    if (l.choices.help)
        return 0;
    if (l.choices.version) {
        printf("levelspruce %s\n", levelspruce_version());
        return 0;
    }
    if (link_open(&l) != 0)
        return 2;
    run(&l);
    says_end(&l.says);
    status = tally_close(&l.tally, &l.client);
    if (link_close(&l) != 0) {
        fprintf(stderr, "link: the recording could not be written\n");
        return 2;
    }
    if (fflush(stdout) != 0 || ferror(stdout)) {
        fprintf(stderr, "link: the lines could not be written\n");
        return 2;
    }
    return status;
}
