/* Times the whole example link in its steady state: for each size a line with the milliseconds of an epoch and the multiple
 * of real time, in which an epoch takes 2 ms (16 frames of 125 microseconds).
 *
 * It is the code of host/link but for its tally. Timed are the client's bytes put into group frames, the sender's calls, the
 * lines, the receiver's calls, the reply and the way back. Nothing is printed while timing, and what comes out is only
 * counted then; before and after, it is compared with what was sent. Time is that for which the process had a processor.
 * CALLS says what it is linked with: the proved calls, or C in the place of spreading and of the receiver.
 */
#define _POSIX_C_SOURCE 199309L
#include "times.h"

#ifndef CALLS
#define CALLS "proved"
#endif

#define main link_main
#include "../link/main.c"
#undef main

enum { ROUNDS = 21, BYTES_A_ROUND = 3000000, EPOCHS_TO_BEGIN = 2000, WINDOW = 64 };

static int comparing;

int tally_open(struct tally *t, const char *out, int doubtful)
{
    (void)out;
    memset(t, 0, sizeof *t);
    t->doubtful = doubtful;
    return 0;
}

void tally_report(struct tally *t, uint64_t epoch, const struct report *report, const uint8_t *bytes, const struct sending *sending, struct client *client,
                  struct says *says)
{
    const struct carried *carried = comparing ? sending_carried(sending, epoch) : NULL;

    (void)says;
    t->epochs[report->mark]++;
    t->bytes[report->mark] += report->bytes;
    if (comparing && report->mark == LEVELSPRUCE_MARK_SURE)
        t->wrong += carried == NULL || carried->bytes != report->bytes || !client_sent(client, carried->from, bytes, report->bytes);
}

int tally_close(struct tally *t, const struct client *client)
{
    (void)client;
    return t->wrong > 0;
}

/* So many more epochs, as run does them. */
static void go_on(struct link *l, uint64_t *time, uint64_t epochs)
{
    uint64_t end = *time + epochs * LEVELSPRUCE_EPOCH_FRAMES;

    for (; *time < end; ++*time) {
        if (*time % LEVELSPRUCE_EPOCH_FRAMES == 0)
            start_epoch(l, *time / LEVELSPRUCE_EPOCH_FRAMES);
        sending_frame(&l->sending, *time, &l->client, l->lines);
        receive(l, *time);
    }
}

static void check(int right, const char *what)
{
    if (right)
        return;
    printf("failed\tlink\t%s\n", what);
    exit(1);
}

/* Whether since then each epoch was reported, sure and with all members' bytes. */
static int all_sure(const struct link *l, const struct tally *before, uint64_t epochs)
{
    uint64_t bytes = epochs * LEVELSPRUCE_EPOCH_FRAMES * l->choices.slots * l->choices.payload;

    return l->tally.epochs[LEVELSPRUCE_MARK_SURE] - before->epochs[LEVELSPRUCE_MARK_SURE] == epochs
        && l->tally.bytes[LEVELSPRUCE_MARK_SURE] - before->bytes[LEVELSPRUCE_MARK_SURE] == bytes;
}

static void measure(const char *name, char *slots, char *payload)
{
    static struct link l;
    static double times[ROUNDS];
    double each; /* the milliseconds of an epoch */
    char *words[] = { "--slots", slots, "--payload", payload, "--quiet" };
    uint64_t time = 0, epochs;
    uint32_t slot;
    struct tally before;
    int k;

    memset(&l, 0, sizeof l);
    check(choices_read(&l.choices, sizeof words / sizeof *words, words) == 0, "choices");
    l.choices.window = WINDOW;
    for (slot = 0; slot < l.choices.slots; slot++)
        l.choices.delay[slot] = slot * 29 % (WINDOW - LEVELSPRUCE_WINDOW_LEAST);
    check(link_open(&l) == 0, "opening");
    comparing = 1;
    do {
        before = l.tally;
        go_on(&l, &time, 4);
    } while (!all_sure(&l, &before, 4) && time < (uint64_t)EPOCHS_TO_BEGIN * LEVELSPRUCE_EPOCH_FRAMES);
    check(all_sure(&l, &before, 4), "beginning");

    epochs = BYTES_A_ROUND / (l.choices.slots * l.choices.payload);
    comparing = 0;
    before = l.tally;
    for (k = 0; k < ROUNDS; k++) {
        double begun = now(CLOCK_PROCESS_CPUTIME_ID);

        go_on(&l, &time, epochs);
        times[k] = (now(CLOCK_PROCESS_CPUTIME_ID) - begun) / (double)epochs;
    }
    check(all_sure(&l, &before, ROUNDS * epochs), "all sure");
    comparing = 1;
    before = l.tally;
    go_on(&l, &time, 8);
    check(all_sure(&l, &before, 8) && l.tally.wrong == 0, "the bytes that were sent");
    link_close(&l);

    each = median(times, ROUNDS) / 1e6;
    printf("link\t%s\tW %d\tcalls %s\tepochs %lu\tepoch %.3f ms\ttimes real time %.2f\n", name, WINDOW, CALLS, (unsigned long)(ROUNDS * epochs), each,
           2 / each);
    fflush(stdout);
}

int main(void)
{
    measure("8 VC-3", "8", "756");
    measure("64 VC-4", "64", "2340");
    return 0;
}
