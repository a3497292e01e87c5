/*
 * Tests of spreading and joining over the archive: the worked examples, every answer number, the order of the
 * refusals, that a refusal changes no byte, and frames of all shapes spread and joined again.
 */
#include <levelspruce.h>

#include <string.h>

#include "check.h"

enum { LENT_MOST = LEVELSPRUCE_MEMBERS_MOST * LEVELSPRUCE_PAYLOAD_MOST };
#include "lent.h"

static struct lent frame, members, back;

/* Quicker than noise: these buffers are large. */
static void fill(struct lent *l, unsigned seed)
{
    size_t i;

    for (i = 0; i < sizeof l->now; i++)
        l->now[i] = (uint8_t)((i * 2654435761u + seed) >> 13);
    remember(l);
}

/* Both calls refuse, and leave what they would write. */
static int refused(uint32_t x, uint32_t p, size_t from, size_t to, uint8_t answer)
{
    fill(&frame, 1);
    fill(&members, 2);
    return levelspruce_spread(x, p, lent_bytes(&frame), from, lent_bytes(&members), to) == answer && untouched(&members)
        && levelspruce_join(x, p, lent_bytes(&members), from, lent_bytes(&frame), to) == answer && untouched(&frame);
}

/* A frame is spread byte by byte as it should be, nothing beside the members is written, and joining gives it back. */
static int spread_and_joined(uint32_t x, uint32_t p)
{
    size_t n = (size_t)x * p, i;
    int held;

    fill(&frame, x + 3 * p);
    fill(&members, 2);
    held = levelspruce_spread(x, p, lent_bytes(&frame), n, lent_bytes(&members), n) == LEVELSPRUCE_ANSWER_DONE && stands(&members, n);
    for (i = 0; i < n; i++)
        held = held && lent_bytes(&members)[(i % x) * p + i / x] == lent_bytes(&frame)[i];
    fill(&back, 3);
    held = held && levelspruce_join(x, p, lent_bytes(&members), n, lent_bytes(&back), n) == LEVELSPRUCE_ANSWER_DONE && stands(&back, n);
    return held && memcmp(lent_bytes(&back), lent_bytes(&frame), n) == 0;
}

static void examples(void)
{
    static const uint8_t six[6] = { 0, 1, 2, 3, 4, 5 }, spread[6] = { 0, 3, 1, 4, 2, 5 };
    uint8_t got[6] = { 9, 9, 9, 9, 9, 9 };

    check("P6 is spread", levelspruce_spread(3, 2, six, 6, got, 6) == LEVELSPRUCE_ANSWER_DONE && memcmp(got, spread, 6) == 0);
    check("P6 is joined", levelspruce_join(3, 2, spread, 6, got, 6) == LEVELSPRUCE_ANSWER_DONE && memcmp(got, six, 6) == 0);
    check("P7 gives nothing, with NULL for the empty buffers",
          levelspruce_spread(0, 2, NULL, 0, NULL, 0) == LEVELSPRUCE_ANSWER_DONE && levelspruce_join(0, 2, NULL, 0, NULL, 0) == LEVELSPRUCE_ANSWER_DONE);
}

static void refusals(void)
{
    static const uint32_t wide_x[] = { 65, 66, 128, 256, 257, 65536, 65600, 0x80000000u, 0xFFFFFFFFu };
    static const uint32_t wide_p[] = { 0, 2341, 4096, 65536, 65537, 67876, 0x80000000u, 0xFFFFFFFFu };
    size_t i;
    int held = 1;

    for (i = 0; i < COUNT(wide_x); i++)
        held = held && refused(wide_x[i], 2, 2 * 65, 2 * 65, LEVELSPRUCE_ANSWER_RANGE) && refused(wide_x[i], 1, 0, 0, LEVELSPRUCE_ANSWER_RANGE);
    check("X above 64 is 4", held);
    for (held = 1, i = 0; i < COUNT(wide_p); i++)
        held = held && refused(0, wide_p[i], 0, 0, LEVELSPRUCE_ANSWER_RANGE) && refused(1, wide_p[i], 16, 16, LEVELSPRUCE_ANSWER_RANGE);
    check("P of 0 or above 2,340 is 4, also with X of 0", held);
    check("4 comes before 9", refused(65, 2, 1, 0, LEVELSPRUCE_ANSWER_RANGE) && refused(3, 0, 1, 7, LEVELSPRUCE_ANSWER_RANGE));
    check("a wrong length of what is read is 9", refused(3, 2, 5, 6, LEVELSPRUCE_ANSWER_LENGTH) && refused(3, 2, 7, 6, LEVELSPRUCE_ANSWER_LENGTH)
                                                     && refused(3, 2, 0, 6, LEVELSPRUCE_ANSWER_LENGTH) && refused(0, 2, 1, 0, LEVELSPRUCE_ANSWER_LENGTH));
    check("a wrong length of what is written is 9", refused(3, 2, 6, 5, LEVELSPRUCE_ANSWER_LENGTH) && refused(3, 2, 6, 7, LEVELSPRUCE_ANSWER_LENGTH)
                                                        && refused(3, 2, 6, 0, LEVELSPRUCE_ANSWER_LENGTH) && refused(0, 2, 0, 1, LEVELSPRUCE_ANSWER_LENGTH));
}

static void frames(void)
{
    static const uint32_t sizes[] = { 1, 2, 7, 8, 9, 15, 16, 17, 63, 64, 65, 127, 128, 129, 756, 757, 2339, 2340 };
    uint32_t x;
    size_t i;
    int held = 1;

    for (x = 1; x <= LEVELSPRUCE_MEMBERS_MOST; x++)
        for (i = 0; i < COUNT(sizes); i++)
            held = held && spread_and_joined(x, sizes[i]);
    check("frames of 1 to 64 members are spread byte by byte and joined again", held);
}

int main(void)
{
    examples();
    refusals();
    frames();
    return tally();
}
