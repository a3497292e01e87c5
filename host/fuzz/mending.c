/* A recording of any bytes, or of lines made of them, mended by libFuzzer. */
#define _DEFAULT_SOURCE /* for mmap's MAP_ANONYMOUS */
#include <levelspruce.h>

#include "rooms.h"

enum { MOST = 8192, PORTS = 3 };

/* What libFuzzer takes for new, since it cannot see into the archive: answers, and how much was dropped and restored. */
__attribute__((section("__libfuzzer_extra_counters"))) static uint8_t counters[64];

static uint8_t text[MOST];
static size_t length;

static void put(const char *bytes)
{
    while (*bytes != '\0' && length < MOST)
        text[length++] = (uint8_t)*bytes++;
}

/* A line of a port, with any two digits for H4, and now and then something else of the kind. */
static void put_line(struct program *p)
{
    static const char digits[] = "0123456789abcdefABCDEF";
    uint32_t which = byte_of(p), h4 = byte_of(p);
    char line[] = "0\t00\t0\tAB\n";

    line[0] = (char)('0' + which % PORTS);
    line[2] = digits[h4 / 16];
    line[3] = digits[h4 % (sizeof digits - 1)];
    line[5] = (char)('0' + which / 4 % 2);
    if (which >= 240)
        line[which % (sizeof line - 1)] = (char)byte_of(p);
    put(line);
}

static void make(struct program *p)
{
    uint32_t how = byte_of(p);

    length = 0;
    if (how % 4 > 0)
        put(how % 8 < 7 ? "3\t1\t16\n" : "3\t1\t16\thold-off\t1\t5001\t0\n");
    while (p->at < p->end && length < MOST - 64)
        if (how % 4 > 1)
            put_line(p);
        else
            text[length++] = (uint8_t)byte_of(p);
    if (length > 0 && how >= 128)
        length--;
}

/* Mends what is lent, with lengths that are mostly right; gives the answer. */
static uint8_t mend(struct program *p, struct kept recording, struct kept mended, size_t *mended_length, size_t *notes_length)
{
    static const struct kept nothing;
    struct block from = lend(STATE, recording, recording.length), to, notes;
    size_t told = 7, told_notes = 7;
    uint8_t first = levelspruce_mend_lengths(from.bytes, from.length, &told, &told_notes), answer;
    int right;

    stands(from, 0, "the recording changed");
    if (first != 0 && first != 13 && first != 4)
        fail("an answer that the lengths do not have");
    if (first != 0 && (told != 7 || told_notes != 7))
        fail("a refusal told lengths");
    to = lend(OUT, nothing, about(p, told));
    notes = lend(RESULT, nothing, about(p, told_notes));
    right = to.length == told && notes.length == told_notes;
    answer = levelspruce_mend(from.bytes, from.length, to.bytes, to.length, notes.bytes, notes.length);
    if (answer != (first != 0 ? first : right ? 0 : 9))
        fail("an answer out of order");
    stands(from, 0, "the recording changed in mending");
    stands(to, answer == 0 ? to.length : 0, "a refusal wrote lines");
    stands(notes, answer == 0 ? notes.length : 0, "a refusal wrote notes");
    if (answer == 0)
        put_back(mended, to);
    *mended_length = told;
    *notes_length = told_notes;
    return answer;
}

int LLVMFuzzerTestOneInput(const uint8_t *data, size_t size)
{
    struct program p = { data, data + size }, none = { data, data };
    struct kept recording, mended, again;
    size_t lines, notes, same, unnoted;
    uint8_t answer;

    open_rooms();
    make(&p);
    recording.bytes = text;
    recording.length = length;
    mended = keep(length);
    answer = mend(&p, recording, mended, &lines, &notes);
    counters[answer]++;
    if (answer == 0) {
        counters[16 + (lines < length)]++;
        counters[20 + (notes > 0)]++;
        if (lines > length)
            fail("more came out than went in");
        mended.length = lines;
        again = keep(lines);
        if (mend(&none, mended, again, &same, &unnoted) != 0 || same != lines || unnoted != 0 || memcmp(mended.bytes, again.bytes, lines) != 0)
            fail("mending again changed something");
        free(again.bytes);
    }
    free(mended.bytes);
    return 0;
}
