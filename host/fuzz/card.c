/* Any calls of a card with two circuits, by libFuzzer. */
#define _DEFAULT_SOURCE /* for mmap's MAP_ANONYMOUS */
#include <levelspruce.h>

#include "rooms.h"

enum { CLAIM, RELEASE, ADD, REMOVE, REPORT, LAPSE, EPOCH, PACKET, MEMBER, BOARD, GOING, RANKS, OWNED, CHANGES, CALLS };
enum { ROW = LEVELSPRUCE_OWNED_BYTES, PART = LEVELSPRUCE_SENDER_BYTES };

/* The answers of each call, a bit for each number. */
static const unsigned answers[CALLS] = { 0x4203, 0xC203, 0x420F, 0x420F, 0x303, 0x207, 0x303, 0x4307, 0x4217, 0x203, 0x203, 0x203, 0x203, 0x213 };
static const size_t results[CALLS] = { [PACKET] = LEVELSPRUCE_PACKET_BYTES, [BOARD] = LEVELSPRUCE_BOARD_BYTES, [GOING] = LEVELSPRUCE_BOARD_BYTES,
                                       [RANKS] = LEVELSPRUCE_RANKS_BYTES,   [OWNED] = LEVELSPRUCE_OWNED_BYTES, [CHANGES] = LEVELSPRUCE_CHANGES_BYTES };

/* What libFuzzer takes for new, since it cannot see into the archive: answers by call. */
__attribute__((section("__libfuzzer_extra_counters"))) static uint8_t counters[CALLS * 16];

static uint8_t make(int which, uint32_t g, const uint32_t *n, struct block s, struct block f, struct block o)
{
    switch (which) {
    case CLAIM: return levelspruce_card_claim(s.bytes, s.length, g, n[0]);
    case RELEASE: return levelspruce_card_release(s.bytes, s.length, g, n[0]);
    case ADD: return levelspruce_card_add(s.bytes, s.length, g, n[0]);
    case REMOVE: return levelspruce_card_remove(s.bytes, s.length, g, n[0]);
    case REPORT: return levelspruce_card_report(s.bytes, s.length, g, n[0], n[1], n[2]);
    case LAPSE: return levelspruce_card_lapse(s.bytes, s.length, g);
    case EPOCH: return levelspruce_card_start_epoch(s.bytes, s.length, g, n[0], n[1], n[2]);
    case PACKET: return levelspruce_card_packet(s.bytes, s.length, g, n[0], o.bytes, o.length);
    case MEMBER: return levelspruce_card_payload(s.bytes, s.length, g, n[0], n[1], f.bytes, f.length, o.bytes, o.length);
    case BOARD: return levelspruce_card_board(s.bytes, s.length, g, o.bytes, o.length);
    case GOING: return levelspruce_card_board_going(s.bytes, s.length, g, o.bytes, o.length);
    case RANKS: return levelspruce_card_ranks(s.bytes, s.length, g, o.bytes, o.length);
    case OWNED: return levelspruce_card_owned(s.bytes, s.length, g, o.bytes, o.length);
    default: return levelspruce_card_changes(s.bytes, s.length, g, f.bytes, f.length, o.bytes, o.length);
    }
}

static uint32_t kind; /* of the latest start that was done */

/* X of the group's epoch, as its ranks have it. */
static size_t x_of(struct kept card, uint32_t g)
{
    uint8_t ranks[LEVELSPRUCE_RANKS_BYTES];

    return levelspruce_card_ranks(card.bytes, card.length, g, ranks, sizeof ranks) == LEVELSPRUCE_ANSWER_DONE ? ranks[LEVELSPRUCE_RANKS_X] : 0;
}

static void any_call(struct kept card, struct kept told, struct program *p, int which)
{
    static const struct kept nothing;
    uint32_t g = byte_of(p) % 16 == 15 ? number_of(p) : byte_of(p) % LEVELSPRUCE_GROUPS, n[3];
    struct block state, frame, out;
    uint8_t answer;
    size_t small;

    n[0] = number_of(p);
    n[1] = which == MEMBER || which == REPORT || which == EPOCH ? number_of(p) : 0;
    n[2] = which == REPORT || which == EPOCH ? number_of(p) : 0;
    if (which == MEMBER && kind == LEVELSPRUCE_KIND_VC12 && n[1] < 128)
        n[1] = LEVELSPRUCE_PAYLOAD_VC12;
    small = n[1] < 64 || n[1] == LEVELSPRUCE_PAYLOAD_VC12 ? n[1] : 1;
    state = lend(STATE, card, about(p, card.length));
    frame = which == CHANGES ? lend(PAYLOAD, told, about(p, told.length)) : lend(PAYLOAD, nothing, which == MEMBER ? about(p, x_of(card, g) * small) : 0);
    out = lend(RESULT, nothing,
               about(p, which == MEMBER                                    ? small
                        : which == PACKET && kind == LEVELSPRUCE_KIND_VC12 ? LEVELSPRUCE_PACKET_BYTES_VC12
                                                                           : results[which]));
    answer = make(which, g, n, state, frame, out);
    if (answer > 15 || !(answers[which] >> answer & 1))
        fail("an answer that the call does not have");
    if (state.length != LEVELSPRUCE_CARD_BYTES ? answer != 9 : g >= LEVELSPRUCE_GROUPS ? answer != 1 : 0)
        fail("9 and 1 do not come first");
    stands(frame, answer == 0 && which == CHANGES ? frame.length : 0, "a group frame or the board told of a refusal changed");
    stands(out, answer == 0 ? out.length : 0, "a refused reading was written");
    stands(state, answer == 0 && which < PACKET ? state.length : 0, "a refusal or a reading changed the state");
    if (answer == 0 && memcmp(state.bytes + ROW + (1 - g) * PART, before[STATE] + ROW + (1 - g) * PART, PART) != 0)
        fail("a call changed the other group's part");
    put_back(card, state);
    if (which == CHANGES)
        put_back(told, frame);
    else if (which == GOING && answer == 0)
        put_back(told, out);
    counters[which * 16 + answer] = 1;
}

static void start(struct kept card, struct program *p)
{
    uint32_t count = number_of(p), first = number_of(p), second = number_of(p), as = byte_of(p), asked = as % 32 ? as % 2 : number_of(p);
    struct block state = lend(STATE, card, about(p, card.length));
    uint32_t most = asked == LEVELSPRUCE_KIND_VC12 ? 31 : 255;
    uint8_t answer = as >= 128 && asked == LEVELSPRUCE_KIND_H4 ? levelspruce_card_start(count, first, second, state.bytes, state.length)
                                                               : levelspruce_card_start_as(asked, count, first, second, state.bytes, state.length);
    int right = state.length == LEVELSPRUCE_CARD_BYTES;

    if (answer == 0)
        kind = asked;
    if (answer != (count < 1 || count > 64 || asked > 1 ? 4 : !right ? 9 : first > most || second > most ? 8 : 0))
        fail("start answers another number than the first that fits");
    stands(state, right && (answer == 0 || answer == 4) ? state.length : 0, "start changed what it must leave");
    put_back(card, state);
}

/* The settings of a group, whose part of the state is a sender's own. */
static void settings(struct kept card, struct program *p)
{
    static const struct kept nothing;
    struct kept part = { card.bytes + ROW + byte_of(p) % LEVELSPRUCE_GROUPS * PART, PART };
    struct block state = lend(STATE, part, about(p, PART)), out = lend(RESULT, nothing, about(p, LEVELSPRUCE_SENDER_SETTINGS_BYTES));
    uint8_t answer = levelspruce_sender_settings(state.bytes, state.length, out.bytes, out.length);

    if (answer != (state.length == PART && out.length == LEVELSPRUCE_SENDER_SETTINGS_BYTES ? 0 : 9))
        fail("settings answer another number than the first that fits");
    stands(out, answer == 0 ? out.length : 0, "refused settings were written");
    stands(state, 0, "settings changed the state");
}

/* Some bytes of the state become any. */
static void damage(struct kept card, struct program *p)
{
    uint32_t at = number_of(p) * 4, i, n = byte_of(p) % 16;

    for (i = 0; i <= n; i++)
        card.bytes[(at + i) % card.length] = (uint8_t)byte_of(p);
}

int LLVMFuzzerTestOneInput(const uint8_t *data, size_t size)
{
    struct program p = { data, data + size };
    struct kept card = keep(LEVELSPRUCE_CARD_BYTES), told = keep(LEVELSPRUCE_BOARD_BYTES);

    open_rooms();
    turn = 0;
    kind = LEVELSPRUCE_KIND_H4;
    while (p.at < p.end) {
        uint32_t which = byte_of(&p) % (CALLS + 4);

        if (which < CALLS)
            any_call(card, told, &p, (int)which);
        else if (which == CALLS)
            start(card, &p);
        else if (which == CALLS + 1)
            damage(card, &p);
        else if (which == CALLS + 2)
            settings(card, &p);
        else
            fill(card.bytes, card.length, byte_of(&p));
    }
    free(card.bytes);
    free(told.bytes);
    return 0;
}
