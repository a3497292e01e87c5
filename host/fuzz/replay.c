/* Any turns of a replay, on text and state of any bytes, by libFuzzer. */
#define _DEFAULT_SOURCE /* for mmap's MAP_ANONYMOUS */
#include <levelspruce.h>

#include "rooms.h"

enum { MOST = 4096, PORTS = 3, ROWS = LEVELSPRUCE_RECEIVER_ROWS(LEVELSPRUCE_PORTS_MOST), STORE_MOST = 8192, TURNS = 600 };

/* What libFuzzer takes for new, since it cannot see into the archive: answers, what was printed, and where turns stop. */
__attribute__((section("__libfuzzer_extra_counters"))) static uint8_t counters[64];

static uint8_t text[MOST];
static size_t length;

static void put(const char *bytes)
{
    while (*bytes != '\0' && length < MOST)
        text[length++] = (uint8_t)*bytes++;
}

/* Frames of a port one behind the other, whose counts go on, or any line. */
static void put_lines(struct program *p)
{
    uint32_t which = byte_of(p), many = byte_of(p) % 48, n, first = byte_of(p);
    char line[32];

    for (n = first; n < first + many; n++) {
        snprintf(line, sizeof line, "%u\t%X%X\t%u\tAB\n", (unsigned)(which % PORTS), (unsigned)(n % 16 == 1 ? n / 16 % 16 : 0), (unsigned)(n % 16),
                 (unsigned)(which == 250));
        if (which > 252)
            line[byte_of(p) % 8] = (char)byte_of(p);
        put(line);
    }
}

static void make(struct program *p)
{
    static const char *const firsts[] = { "3\t1\t16\n", "3\t1\t16\tkind\tFIXED\n", "1\t136\t32\tkind\tVC12\n", "1\t1\t16\tkind\tFIXED\n" };
    uint32_t how = byte_of(p);

    length = 0;
    if (how % 8 > 0)
        put(firsts[how % 4]);
    while (p->at < p->end && length < MOST - 1024)
        if (how % 8 > 1)
            put_lines(p);
        else
            text[length++] = (uint8_t)byte_of(p);
}

int LLVMFuzzerTestOneInput(const uint8_t *data, size_t size)
{
    struct program p = { data, data + size };
    struct kept state = keep(LEVELSPRUCE_REPLAY_BYTES), rows = keep((size_t)ROWS * LEVELSPRUCE_ROW_BYTES), store = keep(STORE_MOST), out = keep(STORE_MOST);
    size_t at = 0, told_store = 7, told_out = 7, k;
    uint8_t first;

    open_rooms();
    make(&p);
    p.at = data; /* once more, for lengths */
    first = levelspruce_replay_lengths(text, length, &told_store, &told_out);
    if ((first != 0 && first != 13 && first != 4) || (first != 0 && (told_store != 7 || told_out != 7)))
        fail("lengths out of order");
    counters[first]++;
    if (first != 0 || told_store > STORE_MOST || told_out > STORE_MOST)
        told_store = told_out = 64;
    if (byte_of(&p) % 16 == 0)
        fill(state.bytes, state.length, byte_of(&p));
    else if (levelspruce_replay_begin(state.bytes, state.length) != 0)
        fail("a beginning was refused");
    for (k = 0; k < TURNS; k++) {
        uint32_t how = byte_of(&p);
        struct block s = lend(STATE, state, how == 255 ? about(&p, state.length) : state.length), r = lend(RESULT, rows, rows.length),
                     t = lend(STORE, store, how == 254 ? about(&p, told_store) : told_store), o = lend(OUT, out, how == 253 ? about(&p, told_out) : told_out),
                     w = lend(PAYLOAD, out, LEVELSPRUCE_REPLAY_ROOM);
        size_t place = how == 252 ? length + 1 : at, before_at = place, written = 77;
        uint8_t wants = 7, answer;

        answer = levelspruce_replay_turn(s.bytes, s.length, text, length, &place, how % 2, (uint8_t(*)[LEVELSPRUCE_ROW_BYTES])r.bytes,
                                         r.length / LEVELSPRUCE_ROW_BYTES, t.bytes, t.length, o.bytes, o.length, w.bytes, w.length, &written, &wants);
        if (answer != 0 && answer != 9)
            fail("an answer that a turn does not have");
        stands(s, answer == 0 ? s.length : 0, "a refusal changed the state");
        stands(r, answer == 0 ? r.length : 0, "a refusal changed rows");
        stands(t, answer == 0 ? t.length : 0, "a refusal changed the store");
        stands(o, answer == 0 ? o.length : 0, "a refusal changed the output");
        stands(w, answer == 0 ? written : 0, "a turn wrote more than it says");
        if (answer == 9 && (place != before_at || written != 77 || wants != 7))
            fail("a refusal told something");
        if (answer == 0 && (place < before_at || place > length || written > w.length || wants > 1))
            fail("a turn told what cannot be");
        counters[16 + answer]++;
        if (answer == 0) {
            put_back(state, s);
            put_back(rows, r);
            put_back(store, t);
            put_back(out, o);
            at = place;
            counters[32 + state.bytes[0] % 8]++;
            counters[40 + (written > 0)]++;
            if (wants && at == length)
                break;
        }
    }
    free(state.bytes);
    free(rows.bytes);
    free(store.bytes);
    free(out.bytes);
    return 0;
}
