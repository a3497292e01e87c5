/* slots P FRAMES: so many group frames of a sender with 64 active slots, each handed out slot by slot and then spread once. For counting
 * instructions (host/bench/instructions). Both must give the same bytes.
 */
#include "levelspruce.h"
#include <stdio.h>
#include <stdlib.h>
#include <string.h>

enum { SLOTS = 64, EPOCHS = 256 };

static void must(int held, const char *what)
{
    if (held)
        return;
    printf("failed\t%s\n", what);
    exit(1);
}

int main(int words, char **word)
{
    static uint8_t sender[LEVELSPRUCE_SENDER_BYTES], ranks[LEVELSPRUCE_RANKS_BYTES];
    uint8_t *frame, *alone, *spread;
    uint32_t payload, frames, slot;

    must(words == 3, "slots P FRAMES");
    payload = (uint32_t)strtoul(word[1], NULL, 10);
    frames = (uint32_t)strtoul(word[2], NULL, 10);
    must(levelspruce_sender_start(SLOTS, 0, sender, sizeof sender) == 0, "the answer of a start");
    for (slot = 0; slot < SLOTS; slot++)
        must(levelspruce_sender_add(sender, sizeof sender, slot) == 0, "the answer of an add");
    for (uint32_t epoch = 0; epoch < EPOCHS; epoch++) /* each report says that all is well, and turns RS-Ack */
        must(levelspruce_sender_report(sender, sizeof sender, epoch, 0, epoch % 2) == 0
                 && levelspruce_sender_start_epoch(sender, sizeof sender, 0, 0xFF, 0) == 0,
             "the answer of a report or of an epoch's start");
    must(levelspruce_sender_ranks(sender, sizeof sender, ranks, sizeof ranks) == 0 && ranks[LEVELSPRUCE_RANKS_X] == SLOTS, "64 active slots");
    frame = malloc((size_t)SLOTS * payload), alone = malloc((size_t)SLOTS * payload), spread = malloc((size_t)SLOTS * payload);
    must(frame != NULL && alone != NULL && spread != NULL, "memory");
    for (size_t i = 0; i < (size_t)SLOTS * payload; i++)
        frame[i] = (uint8_t)(i * 2654435761u >> 24);
    while (frames--) {
        for (slot = 0; slot < SLOTS; slot++)
            must(levelspruce_sender_payload(sender, sizeof sender, slot, payload, frame, (size_t)SLOTS * payload, alone + (size_t)slot * payload, payload) == 0,
                 "the answer of a slot's payload");
        must(levelspruce_spread(SLOTS, payload, frame, (size_t)SLOTS * payload, spread, (size_t)SLOTS * payload) == 0, "the answer of a spread");
        for (slot = 0; slot < SLOTS; slot++)
            must(memcmp(alone + (size_t)slot * payload, spread + (size_t)ranks[LEVELSPRUCE_RANKS_EACH + slot] * payload, payload) == 0, "the same bytes");
    }
    return 0;
}
