/* receivers ROUNDS LIBRARY..: times frame, fetch and a fetch with none due of several receivers, each a shared library: of other commits'
 * objects, or the one in C with the least state (least.c). They run one after the other in one process, round by round, at all sizes of
 * docs/BENCH.md. A line for each size and library: the medians of the rounds in nanoseconds a call, and of the ratios to the first
 * library, taken round by round. Time is that for which the process had a processor. Started with no times; all ports are active, with no
 * delays, and all libraries give the same bytes.
 */
#define _POSIX_C_SOURCE 200809L
#include "levelspruce.h"
#include <dlfcn.h>
#include <stdio.h>
#include <string.h>

#include "times.h"

enum { MOST = 8, CALLS = 3, NONE_DUE = 2000, TAGS = 4096, EPOCH = 16, EPOCHS = 4, ROW = LEVELSPRUCE_ROW_BYTES, PACKET = LEVELSPRUCE_PACKET_BYTES };

struct library {
    const char *name;
    uint8_t (*start)(uint32_t, uint32_t, uint32_t, size_t, uint8_t (*)[ROW], size_t);
    uint8_t (*frame)(uint8_t (*)[ROW], size_t, uint32_t, uint32_t, uint8_t, const uint8_t *, size_t, uint8_t *, size_t);
    uint8_t (*fetch)(uint8_t (*)[ROW], size_t, const uint8_t *, size_t, uint8_t *, size_t, uint8_t *, size_t);
    uint8_t (*rows)[ROW], *store, *out;
    uint32_t next;
    double *times[CALLS], *ratios[CALLS];
};

static struct library libraries[MOST];
static int count, rounds;

static uint32_t ports, payload, window;
static size_t row_count, store_bytes, out_bytes;
static uint8_t *h4, *sent;

static void *must(void *p, const char *what)
{
    if (p != NULL)
        return p;
    printf("failed\t%s\n", what);
    exit(1);
}

/* a call of a library; ISO C has no conversion of an address of data to one of a function */
static void find(void *from, const char *name, void *call)
{
    void *p = must(dlsym(from, name), name);
    memcpy(call, &p, sizeof p);
}

/* a packet with its CRC bit by bit: SQ, MFI2 and the word, all else 0 */
static void pack(uint8_t *to, uint32_t epoch, uint32_t word, uint32_t sq)
{
    unsigned nibbles[PACKET] = { [6] = sq / 16, [7] = sq % 16, [8] = epoch / 16, [9] = epoch % 16, [10] = word }, rest = 0;
    for (int k = 0; k < 14; k++)
        for (int bit = 3; bit >= 0; bit--)
            rest = (rest << 1 & 0xFF) ^ ((rest >> 7 ^ nibbles[k] >> bit) & 1 ? 0x07 : 0);
    nibbles[14] = rest / 16;
    nibbles[15] = rest % 16;
    for (unsigned k = 0; k < PACKET; k++)
        to[k] = (uint8_t)(nibbles[k] * 16 + (k + 8) % 16);
}

/* what is sent: a port's number is its own, the highest has EOS */
static void send_all(void)
{
    uint32_t seed = 1;
    h4 = must(malloc((size_t)TAGS * ports), "memory");
    sent = must(malloc((size_t)ports * payload), "memory");
    for (size_t i = 0; i < (size_t)ports * payload; i++) {
        seed = seed * 1664525 + 1013904223;
        sent[i] = (uint8_t)(seed >> 24);
    }
    for (uint32_t port = 0; port < ports; port++)
        for (uint32_t first = 8; first < TAGS + 8; first += EPOCH) {
            uint8_t packet[PACKET];
            pack(packet, first % TAGS / EPOCH, port == ports - 1 ? LEVELSPRUCE_WORD_EOS : LEVELSPRUCE_WORD_NORM, port);
            for (uint32_t k = 0; k < PACKET; k++)
                h4[(size_t)((first + k) % TAGS) * ports + port] = packet[k];
        }
}

static void hand(struct library *l, uint32_t from, uint32_t to, uint8_t answer)
{
    for (uint32_t tag = from; tag < to; tag++)
        for (uint32_t port = 0; port < ports; port++)
            if (l->frame(l->rows, row_count, port, 0, h4[(size_t)(tag % TAGS) * ports + port], sent + (size_t)port * payload, payload, l->store, store_bytes)
                != answer)
                must(NULL, "the answer of a frame");
}

static uint8_t fetch(struct library *l)
{
    uint8_t report[LEVELSPRUCE_REPORT_BYTES];
    if (l->fetch(l->rows, row_count, l->store, store_bytes, l->out, out_bytes, report, sizeof report) != 0)
        must(NULL, "the answer of a fetch");
    return report[LEVELSPRUCE_REPORT_MARK];
}

/* into step with tag 31, and over the first report */
static void begin(struct library *l)
{
    l->rows = must(calloc(row_count, ROW), "memory");
    l->store = must(malloc(store_bytes), "memory");
    memset(l->store, 0xA5, store_bytes);
    l->out = must(calloc(out_bytes, 1), "memory");
    if (l->start(ports, payload, window, store_bytes, l->rows, row_count) != 0)
        must(NULL, "the answer of a start");
    hand(l, 0, 31, LEVELSPRUCE_ANSWER_STEP);
    hand(l, 31, 8 + 4 * EPOCH, 0);
    if (fetch(l) != LEVELSPRUCE_MARK_SURE || fetch(l) != 0)
        must(NULL, "the first report");
    l->next = 8 + 4 * EPOCH;
}

/* the times of a round, nanoseconds a call */
static void round_of(struct library *l, double cost, double *each)
{
    double begun = now(CLOCK_PROCESS_CPUTIME_ID), handed, fetched;
    hand(l, l->next, l->next + EPOCHS * EPOCH, 0);
    handed = now(CLOCK_PROCESS_CPUTIME_ID);
    for (int k = 0; k < EPOCHS; k++)
        if (fetch(l) != LEVELSPRUCE_MARK_SURE)
            must(NULL, "the mark of a report");
    fetched = now(CLOCK_PROCESS_CPUTIME_ID);
    for (int k = 0; k < NONE_DUE; k++)
        if (fetch(l) != LEVELSPRUCE_MARK_NONE)
            must(NULL, "none due");
    each[0] = (handed - begun - cost) / (EPOCHS * EPOCH * ports);
    each[1] = (fetched - handed - cost) / EPOCHS;
    each[2] = (now(CLOCK_PROCESS_CPUTIME_ID) - fetched - cost) / NONE_DUE;
    l->next = (l->next + EPOCHS * EPOCH) % TAGS;
}

static double clock_cost(void)
{
    double times[1001];
    for (int k = 0; k < 1001; k++) {
        double begun = now(CLOCK_PROCESS_CPUTIME_ID);
        times[k] = now(CLOCK_PROCESS_CPUTIME_ID) - begun;
    }
    return median(times, 1001);
}

static void measure(void)
{
    static const char *what[CALLS] = { "frame", "fetch", "none due" };
    double cost = clock_cost();
    int warm = (int)(window / EPOCH / EPOCHS + 1); /* the first time round brings the store into memory */
    row_count = LEVELSPRUCE_RECEIVER_ROWS(ports);
    store_bytes = LEVELSPRUCE_STORE_BYTES(ports, payload, window);
    out_bytes = LEVELSPRUCE_OUTPUT_BYTES(ports, payload);
    send_all();
    for (int i = 0; i < count; i++)
        begin(&libraries[i]);
    for (int k = -warm; k < rounds; k++)
        for (int i = 0; i < count; i++) {
            struct library *l = &libraries[(i + k + warm) % count];
            double each[CALLS];
            round_of(l, cost, each);
            for (int w = 0; w < CALLS && k >= 0; w++)
                l->times[w][k] = each[w];
        }
    for (int w = 0; w < CALLS; w++)
        for (int i = 0; i < count; i++)
            for (int k = 0; k < rounds; k++)
                libraries[i].ratios[w][k] = libraries[i].times[w][k] / libraries[0].times[w][k];
    for (int w = 0; w < CALLS; w++)
        for (int i = 0; i < count; i++)
            printf("%s\tports %u\tP %u\tW %u\t%s\t%.1f ns\tto the first %.3f\n", what[w], ports, payload, window, libraries[i].name,
                   median(libraries[i].times[w], (size_t)rounds), median(libraries[i].ratios[w], (size_t)rounds));
    for (int i = 1; i < count; i++)
        if (memcmp(libraries[i].out, libraries[0].out, out_bytes) != 0)
            must(NULL, "the bytes of a report");
    for (int i = 0; i < count; i++) {
        free(libraries[i].rows);
        free(libraries[i].store);
        free(libraries[i].out);
    }
    free(h4);
    free(sent);
    fflush(stdout);
}

int main(int words, char **word)
{
    static const uint32_t sizes[][3] = {
        { 1, 756, 64 },     { 1, 756, 2048 }, { 2, 756, 64 },    { 8, 756, 64 },  { 8, 756, 2048 },  { 64, 756, 64 },
        { 64, 756, 2048 },  { 1, 2340, 64 },  { 1, 2340, 2048 }, { 8, 2340, 64 }, { 8, 2340, 2048 }, { 64, 2340, 64 },
        { 64, 2340, 2048 }, { 1, 136, 64 },   { 8, 136, 64 },    { 64, 136, 64 }, { 64, 1, 64 },
    };
    if (words < 3 || words - 2 > MOST || (rounds = atoi(word[1])) < 1)
        must(NULL, "receivers ROUNDS LIBRARY..");
    for (int i = 2; i < words; i++) {
        struct library *l = &libraries[count++];
        void *from = must(dlopen(word[i], RTLD_NOW | RTLD_LOCAL), word[i]);
        l->name = word[i];
        find(from, "levelspruce_receiver_start", &l->start);
        find(from, "levelspruce_receiver_frame", &l->frame);
        find(from, "levelspruce_receiver_fetch", &l->fetch);
        for (int w = 0; w < CALLS; w++) {
            l->times[w] = must(malloc(sizeof(double) * (size_t)rounds), "memory");
            l->ratios[w] = must(malloc(sizeof(double) * (size_t)rounds), "memory");
        }
    }
    for (size_t k = 0; k < sizeof sizes / sizeof *sizes; k++) {
        ports = sizes[k][0];
        payload = sizes[k][1];
        window = sizes[k][2];
        measure();
    }
    return 0;
}
