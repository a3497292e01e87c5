/* kinds KIND PORTS P W EPOCHS [broken]: frame and fetch of a receiver of a kind, in so many epochs of steady traffic: the medians of the epochs
 * in nanoseconds a call, and the share of one processor that its real time takes. All ports are active, with no delays, and every report is sure. With 'broken'
 * every other frame of H4 has another MFI1, so that none goes the short way. Time is that for which the process had a processor. host/bench/instructions counts
 * the instructions of the same runs. Only calls that older objects have too are made.
 */
#define _POSIX_C_SOURCE 200809L
#include "levelspruce.h"
#include <stdio.h>
#include <string.h>

#include "times.h"

enum { ROW = LEVELSPRUCE_ROW_BYTES, VC12 = 1, FRAMES_MOST = 32, BEGINNING = 6 };

struct clock {
    uint32_t frames, epochs;
    double epoch_seconds;
};

static uint32_t kind, ports, payload, window, epochs, broken;
static struct clock by;
static uint8_t (*rows)[ROW], *store, *out, *sent;
static size_t row_count, store_bytes, out_bytes;
static double *frame_times, *fetch_times; /* of each epoch */

static void must(int held, const char *what)
{
    if (held)
        return;
    printf("failed\t%s\n", what);
    exit(1);
}

static void *memory(size_t bytes)
{
    void *p = calloc(bytes, 1);

    must(p != NULL, "memory");
    return p;
}

/* H4's packet with its CRC bit by bit: SQ, MFI2 and the word, all else 0 */
static void pack_h4(uint8_t *to, uint32_t epoch, uint32_t word, uint32_t sq)
{
    unsigned nibbles[16] = { [6] = sq / 16, [7] = sq % 16, [8] = epoch / 16, [9] = epoch % 16, [10] = word }, rest = 0;

    for (int k = 0; k < 14; k++)
        for (int bit = 3; bit >= 0; bit--)
            rest = (rest << 1 & 0xFF) ^ ((rest >> 7 ^ nibbles[k] >> bit) & 1 ? 0x07 : 0);
    nibbles[14] = rest / 16;
    nibbles[15] = rest % 16;
    for (unsigned k = 0; k < 16; k++)
        to[k] = (uint8_t)(nibbles[k] * 16 + (k + 8) % 16);
}

/* VC-12's, the same way */
static void pack_vc12(uint8_t *to, uint32_t epoch, uint32_t word, uint32_t sq)
{
    uint32_t data = epoch << 24 | sq << 18 | word << 14, rest = 0;

    for (int bit = 28; bit >= 0; bit--)
        rest = (rest << 1 & 7) ^ ((rest >> 2 ^ data >> bit) & 1 ? 3 : 0);
    data = data << 3 | rest;
    for (int k = 0; k < 32; k++)
        to[k] = (uint8_t)((data >> (31 - k) & 1) + (k == 0 ? 2 : 0));
}

static void pack(uint8_t *to, uint32_t epoch, uint32_t port)
{
    (kind == VC12 ? pack_vc12 : pack_h4)(to, epoch % by.epochs, port == ports - 1 ? LEVELSPRUCE_WORD_EOS : LEVELSPRUCE_WORD_NORM, port);
}

/* The frames of one epoch, of all ports by turns; the time that they take. */
static double hand(uint32_t epoch, int steady)
{
    static uint8_t bytes[64][FRAMES_MOST];
    double begun;

    for (uint32_t port = 0; port < ports; port++)
        pack(bytes[port], epoch, port);
    for (uint32_t k = 0; broken && steady && k < by.frames; k += 2)
        for (uint32_t port = 0; port < ports; port++)
            bytes[port][k] ^= 4;
    begun = now(CLOCK_PROCESS_CPUTIME_ID);
    for (uint32_t k = 0; k < by.frames; k++)
        for (uint32_t port = 0; port < ports; port++) {
            uint8_t answer = levelspruce_receiver_frame(rows, row_count, port, 0, bytes[port][k], sent + (size_t)port * payload, payload, store, store_bytes);

            must(answer == 0 || !steady, "the answer of a frame");
        }
    return now(CLOCK_PROCESS_CPUTIME_ID) - begun;
}

/* The mark of the next report. */
static uint8_t fetch(double *taken)
{
    uint8_t report[LEVELSPRUCE_REPORT_BYTES];
    double begun = now(CLOCK_PROCESS_CPUTIME_ID);

    must(levelspruce_receiver_fetch(rows, row_count, store, store_bytes, out, out_bytes, report, sizeof report) == 0, "the answer of a fetch");
    *taken = now(CLOCK_PROCESS_CPUTIME_ID) - begun;
    return report[LEVELSPRUCE_REPORT_MARK];
}

int main(int words, char **word)
{
    uint32_t numbers[5] = { 0 }, epoch;
    double frames, fetched;

    must(words == 6 || words == 7, "kinds KIND PORTS P W EPOCHS [broken]");
    for (int i = 0; i < 5; i++)
        numbers[i] = (uint32_t)strtoul(word[i + 1], NULL, 10);
    kind = numbers[0], ports = numbers[1], payload = numbers[2], window = numbers[3], epochs = numbers[4];
    broken = words == 7;
    must(ports >= 1 && ports <= 64 && epochs >= 1, "1 to 64 ports, and an epoch at least");
    by = kind == VC12 ? (struct clock){ 32, 32, 0.016 } : (struct clock){ 16, 256, 0.002 };
    row_count = LEVELSPRUCE_RECEIVER_ROWS(ports);
    store_bytes = LEVELSPRUCE_STORE_BYTES(ports, payload, window);
    out_bytes = (size_t)ports * by.frames * payload;
    rows = memory(row_count * ROW);
    store = memory(store_bytes);
    out = memory(out_bytes);
    sent = memory((size_t)ports * payload);
    for (size_t i = 0; i < (size_t)ports * payload; i++)
        sent[i] = (uint8_t)(i * 2654435761u >> 24);
    must(levelspruce_receiver_start_as(kind, ports, payload, window, store_bytes, NULL, 0, NULL, 0, rows, row_count) == 0, "the answer of a start");
    frame_times = memory(epochs * sizeof *frame_times);
    fetch_times = memory(epochs * sizeof *fetch_times);
    for (epoch = 0; epoch < BEGINNING; epoch++) {
        hand(epoch, 0);
        while (fetch(&fetched) != LEVELSPRUCE_MARK_NONE)
            ;
    }
    for (; epoch < BEGINNING + epochs; epoch++) {
        frame_times[epoch - BEGINNING] = hand(epoch, 1);
        must(fetch(&fetch_times[epoch - BEGINNING]) == LEVELSPRUCE_MARK_SURE, "the mark of a report");
    }
    frames = median(frame_times, epochs);
    fetched = median(fetch_times, epochs);
    printf("%s\tports %u\tP %u\tW %u\tframe %.1f ns\tfetch %.0f ns\tshare of a processor %.4f\n",
           kind == VC12 ? "VC-12"
           : broken     ? "H4, broken"
                        : "H4",
           ports, payload, window, frames / (by.frames * ports), fetched, (frames + fetched) / 1e9 / by.epoch_seconds);
    return 0;
}
