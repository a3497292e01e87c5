/* Times levelspruce_packet_read beside a check bit by bit in Rust and in C and the reference in Rust, one after the other in
 * one process, round by round, on the same packets. A line for packets as written and one for packets with a bit changed: the
 * median of the rounds in nanoseconds a packet, and the ratio to each form. Time is that for which the process had a processor.
 * With BEFORE also beside the same call of another archive; as_before.c has held the two to each other by then. With MANY also 64
 * packets in one call, which takes the table of shares once for all of them, as a fetch does (many.part).
 */
#define _POSIX_C_SOURCE 199309L
#include "levelspruce.h"
#include <stdio.h>
#include <string.h>

#include "times.h"

typedef uint8_t call(const uint8_t *h4, size_t h4_length, uint8_t *fields, size_t fields_length);

typedef uint8_t calls(const uint8_t (*h4)[LEVELSPRUCE_PACKET_BYTES], size_t packets, uint8_t *fields, size_t fields_length);

call before_packet_read, gcc_read, clang_read, rust_read, rust_bits_read;
calls bench_packets_read;

static const struct form {
    const char *name;
    call *read;
    calls *read_many;
} forms[] = {
    { "proved", levelspruce_packet_read, NULL },
#ifdef MANY
    { "proved, 64 in a call", NULL, bench_packets_read },
#endif
#ifdef BEFORE
    { "before", before_packet_read, NULL },
#endif
    { "Rust bit by bit", rust_bits_read, NULL },
    { "gcc", gcc_read, NULL },
#ifdef CLANG
    { "clang", clang_read, NULL },
#endif
    { "the reference in Rust", rust_read, NULL },
};

#ifdef MANY
enum { OWN = 2 }; /* how many of them are ours */
#else
enum { OWN = 1 };
#endif
enum { FORMS = sizeof forms / sizeof *forms, ROUNDS = 101, PACKETS = 4096, TOGETHER = 64 };

static uint8_t packets[PACKETS][LEVELSPRUCE_PACKET_BYTES], fields[PACKETS][LEVELSPRUCE_FIELDS_BYTES];
static uint8_t first[PACKETS][LEVELSPRUCE_FIELDS_BYTES];

/* nanoseconds a packet, one round over all packets */
static double round_of(const struct form *f, uint8_t answer)
{
    const int step = f->read_many ? TOGETHER : 1;
    double begun = now(CLOCK_PROCESS_CPUTIME_ID);
    for (int i = 0; i < PACKETS; i += step) {
        uint8_t given = f->read_many ? f->read_many((const uint8_t(*)[LEVELSPRUCE_PACKET_BYTES]) & packets[i], TOGETHER, fields[i], TOGETHER * sizeof fields[i])
                                     : f->read(packets[i], sizeof packets[i], fields[i], sizeof fields[i]);
        if (given != answer) {
            printf("failed\tpacket %d is not answered %d\n", i, answer);
            exit(1);
        }
    }
    return (now(CLOCK_PROCESS_CPUTIME_ID) - begun) / PACKETS;
}

static void measure(const char *which, uint8_t answer)
{
    static double times[FORMS][ROUNDS];
    double medians[FORMS];
    for (int i = 0; i < FORMS; i++) {
        memset(fields, 0, sizeof fields);
        round_of(&forms[i], answer);
        if (i == 0)
            memcpy(first, fields, sizeof fields);
        else if (memcmp(first, fields, sizeof fields) != 0) {
            printf("failed\tthe fields by %s differ\n", forms[i].name);
            exit(1);
        }
    }
    for (int k = 0; k < ROUNDS; k++)
        for (int i = 0; i < FORMS; i++)
            times[i][k] = round_of(&forms[i], answer);
    printf("packet\t%s", which);
    for (int i = 0; i < FORMS; i++) {
        medians[i] = median(times[i], ROUNDS);
        printf("\t%s %.1f ns", forms[i].name, medians[i]);
    }
    for (int own = 0; own < OWN; own++)
        for (int i = OWN; i < FORMS; i++)
            printf("\t%s to %s %.2f", forms[own].name, forms[i].name, medians[own] / medians[i]);
    putchar('\n');
    fflush(stdout);
}

int main(void)
{
    static const uint32_t words[] = { LEVELSPRUCE_WORD_ADD, LEVELSPRUCE_WORD_NORM, LEVELSPRUCE_WORD_EOS, LEVELSPRUCE_WORD_IDLE, LEVELSPRUCE_WORD_DNU };
    uint32_t seed = 1;
    for (int i = 0; i < PACKETS; i++) {
        seed = seed * 1664525 + 1013904223;
        if (levelspruce_packet_write(seed >> 24, words[(seed >> 8) % 5], seed >> 23 & 1, seed >> 15 & 0xFF, seed >> 22 & 1, i % 256,
                                     seed % (LEVELSPRUCE_RESERVED_MOST + 1), packets[i], sizeof packets[i])
            != 0)
            return 1;
    }
    measure("as written", LEVELSPRUCE_ANSWER_DONE);
    for (int i = 0; i < PACKETS; i++)
        packets[i][i % 16] ^= (uint8_t)(0x10 << i / 16 % 4);
    measure("one bit changed", LEVELSPRUCE_ANSWER_CRC);
    return 0;
}
