/*
 * Tests of mending over the archive: recordings with what comes out and the notes worked out by hand, every refusal alone and
 * in its order, that a refusal changes no byte, and lengths at their edges.
 */
#include <levelspruce.h>

#include <stdio.h>
#include <string.h>

#include "check.h"

enum { LENT_MOST = 20000 };
#include "lent.h"

static struct lent lines, notes;

/* Spaces stand for tabs. */
static size_t tabbed(const char *text, uint8_t *bytes)
{
    size_t i, n = strlen(text);

    for (i = 0; i < n; i++)
        bytes[i] = text[i] == ' ' ? '\t' : (uint8_t)text[i];
    return n;
}

/* The recording is mended to this, with these notes, and nothing beside them is written. */
static int mends(const uint8_t *torn, size_t length, const uint8_t *wanted, size_t wanted_length, const uint8_t *noted, size_t noted_length)
{
    size_t mended_length = 1, notes_length = 1;

    if (levelspruce_mend_lengths(torn, length, &mended_length, &notes_length) != LEVELSPRUCE_ANSWER_DONE || mended_length != wanted_length
        || notes_length != noted_length)
        return 0;
    lend(&lines, NULL, 0);
    lend(&notes, NULL, 0);
    return levelspruce_mend(torn, length, lent_bytes(&lines), mended_length, lent_bytes(&notes), notes_length) == LEVELSPRUCE_ANSWER_DONE
        && stands(&lines, wanted_length) && stands(&notes, noted_length) && memcmp(lent_bytes(&lines), wanted, wanted_length) == 0
        && memcmp(lent_bytes(&notes), noted, noted_length) == 0;
}

/* The same of texts; and what came out is mended to itself with no note. */
static int gives(const char *torn, const char *wanted, const char *noted)
{
    static uint8_t t[LENT_MOST], w[LENT_MOST], n[LENT_MOST];
    size_t torn_length = tabbed(torn, t), wanted_length = tabbed(wanted, w), noted_length = tabbed(noted, n);

    return mends(t, torn_length, w, wanted_length, n, noted_length) && mends(w, wanted_length, w, wanted_length, n, 0);
}

/* Lines of one port with these counts, torn and mended. */
static int follows(const char *torn, const char *mended)
{
    uint8_t t[256], w[256];
    size_t i, n = strlen(torn), length = tabbed("1 1 16\n", t), told, noted;
    int held = 1;

    memcpy(w, t, length);
    for (i = 0; i < n; i++) {
        tabbed("0 00 0 AB\n", t + length);
        tabbed("0 00 0 AB\n", w + length);
        t[length + 3] = (uint8_t)torn[i];
        w[length + 3] = (uint8_t)mended[i];
        length += 10;
    }
    held = levelspruce_mend_lengths(t, length, &told, &noted) == LEVELSPRUCE_ANSWER_DONE && told == length && noted < LENT_MOST;
    lend(&lines, NULL, 0);
    lend(&notes, NULL, 0);
    return held && levelspruce_mend(t, length, lent_bytes(&lines), told, lent_bytes(&notes), noted) == LEVELSPRUCE_ANSWER_DONE
        && memcmp(lent_bytes(&lines), w, length) == 0 && stands(&lines, told) && stands(&notes, noted);
}

/* Both calls give this answer, and write nothing. */
static int refused(const char *torn, uint8_t answer)
{
    uint8_t t[256];
    size_t length = tabbed(torn, t), told = 5, noted = 6;

    lend(&lines, NULL, 0);
    lend(&notes, NULL, 0);
    return levelspruce_mend_lengths(t, length, &told, &noted) == answer && told == 5 && noted == 6
        && levelspruce_mend(t, length, lent_bytes(&lines), length, lent_bytes(&notes), 0) == answer && untouched(&lines) && untouched(&notes);
}

/* With any lengths. */
static int refused_with(const char *torn, uint8_t answer)
{
    static const size_t lengths[] = { 0, 1, 7, 100 };
    uint8_t t[256];
    size_t length = tabbed(torn, t), i, j;
    int held = 1;

    lend(&lines, NULL, 0);
    lend(&notes, NULL, 0);
    for (i = 0; i < COUNT(lengths); i++)
        for (j = 0; j < COUNT(lengths); j++)
            held = held && levelspruce_mend(t, length, lent_bytes(&lines), lengths[i], lent_bytes(&notes), lengths[j]) == answer;
    return held && untouched(&lines) && untouched(&notes);
}

/* With one length off by one the answer is 9, and nothing is written. */
static int needs_lengths(void)
{
    static const int off[][2] = { { 1, 0 }, { -1, 0 }, { 0, 1 }, { 0, -1 }, { 1, -1 } };
    uint8_t t[256];
    size_t length = tabbed("1 1 16\n0 05 0 AB\ny\n", t), told, noted, i;
    int held = levelspruce_mend_lengths(t, length, &told, &noted) == LEVELSPRUCE_ANSWER_DONE;

    for (i = 0; i < COUNT(off); i++) {
        lend(&lines, NULL, 0);
        lend(&notes, NULL, 0);
        held = held && untouched(&lines) && untouched(&notes)
            && levelspruce_mend(t, length, lent_bytes(&lines), told + (size_t)off[i][0], lent_bytes(&notes), noted + (size_t)off[i][1])
                   == LEVELSPRUCE_ANSWER_LENGTH
            && untouched(&lines) && untouched(&notes);
    }
    return held;
}

/* Three lines of each port in turn, of which the second has a count that breaks: each port begins with another. */
static int sixty_four(void)
{
    static uint8_t t[LENT_MOST], w[LENT_MOST], noted[LENT_MOST];
    size_t length = tabbed("64 1 16\n", t), note = 0;
    unsigned round, port;
    char line[32];

    memcpy(w, t, length);
    for (round = 0; round < 3; round++)
        for (port = 0; port < 64; port++) {
            unsigned count = (port + round) % 16, broken = round == 1 ? (count + 5) % 16 : count;

            sprintf(line, "%u 0%X 0 AB\n", port, count);
            tabbed(line, w + length);
            sprintf(line, "%u 0%X 0 AB\n", port, broken);
            length += tabbed(line, t + length);
            if (round == 1) {
                sprintf(line, "%u H4 0%X 0%X\n", 2 + 64 * round + port, broken, count);
                note += tabbed(line, noted + note);
            }
        }
    return mends(t, length, w, length, noted, note);
}

/* A line of so many noughts between two good ones is dropped. */
static int drops_long(size_t n)
{
    static uint8_t t[LENT_MOST], w[LENT_MOST], noted[LENT_MOST];
    size_t length = tabbed("1 1 16\n0 05 0 AB\n", t), wanted, at;

    memcpy(w, t, length);
    wanted = length + tabbed("0 06 0 AB\n", w + length);
    memset(t + length, '0', n);
    length += n;
    length += tabbed("\n0 06 0 AB\n", t + length);
    at = tabbed("3 line ", noted);
    memset(noted + at, '0', n);
    at += n;
    at += tabbed(" \n", noted + at);
    return mends(t, length, w, wanted, noted, at);
}

/* Five lines of VC-12, of which the third lacks a byte of its payload: it is dropped, and in the others nothing is restored, whatever
 * their bytes. */
static int keeps_vc12(const char *const bytes[5])
{
    static char torn[2000], wanted[2000], noted[400];
    char digits[2 * LEVELSPRUCE_PAYLOAD_VC12 + 1];
    int t = sprintf(torn, "1 136 32 kind VC12\n"), w = sprintf(wanted, "%s", torn), i;

    memset(digits, 'A', sizeof digits - 1);
    digits[sizeof digits - 1] = 0;
    for (i = 0; i < 5; i++) {
        t += sprintf(torn + t, "0 %s 0 %s\n", bytes[i], digits + (i == 2 ? 2 : 0));
        if (i != 2)
            w += sprintf(wanted + w, "0 %s 0 %s\n", bytes[i], digits);
    }
    sprintf(noted, "4 line 0 %s 0 %s \n", bytes[2], digits + 2);
    return gives(torn, wanted, noted);
}

int main(void)
{
    static const char *const one[] = { "03", "00", "01", "01", "00" }, *const other[] = { "05", "00", "01", "07", "08" };

    check("one to three broken counts before a good one", follows("5608", "5678") && follows("50009", "56789"));
    check("four broken ones stay, and the following starts afresh", follows("500009", "500009") && follows("501234", "501234"));
    check("of the other three one can be restored at once", follows("519345", "512345"));
    check("and at the end", follows("5092", "5012"));
    check("twice afresh", follows("5999999B", "567899AB") && follows("578AAC", "5789AC"));
    check("nothing to restore", follows("020202", "020202") && follows("569", "569") && follows("11", "11") && follows("F01", "F01"));
    check("two ports, each by its own lines",
          gives("2 1 16\n0 05 0 AB\n1 0e 0 CD\n0 f6 0 AB\n1 00 0 CD\n0 20 0 AB\n1 00 0 CD\n0 08 0 AB\n",
                "2 1 16\n0 05 0 AB\n1 0e 0 CD\n0 f6 0 AB\n1 0F 0 CD\n0 27 0 AB\n1 00 0 CD\n0 08 0 AB\n", "5 H4 00 0F\n6 H4 20 27\n"));
    check("dropped lines, a flagged one restored, and a good one's small letters kept",
          gives("1 1 16\n0 0a 0 AB\n\n0 06 0\n0 10 1 ab\ny y\n0 0c 0 AB\n", "1 1 16\n0 0a 0 AB\n0 1B 1 ab\n0 0c 0 AB\n",
                "3 line  \n4 line 0 06 0 \n5 H4 10 1B\n6 line y y \n"));
    check("a last line without its end, kept and dropped",
          gives("1 1 16\n0 05 0 AB", "1 1 16\n0 05 0 AB", "") && gives("1 1 16\n0 05 0 AB\n0 0", "1 1 16\n0 05 0 AB\n", "3 line 0 0 \n"));
    check("settings alone, with an end and without", gives("1 1 16\n", "1 1 16\n", "") && gives("1 1 16", "1 1 16", ""));
    check("64 ports, each by its own lines", sixty_four());
    check("a FIXED group is followed alike",
          gives("1 1 16 kind FIXED\n0 00 0 AB\n0 00 0 AB\n0 02 0 AB\n", "1 1 16 kind FIXED\n0 00 0 AB\n0 01 0 AB\n0 02 0 AB\n", "3 H4 00 01\n"));
    check("of VC-12 a line is dropped and none restored", keeps_vc12(one) && keeps_vc12(other));
    check("lines of 8,192 and 8,193 bytes", drops_long(8192) && drops_long(8193));
    check("13: a first line that cannot be read",
          refused("x\n", 13) && refused("", 13) && refused("\n", 13) && refused("1 1 16 \n", 13) && refused("1 1 16 kind K4\n", 13));
    check("4: settings out of range", refused("65 1 16\n", 4) && refused("0 1 16\n", 4) && refused("2 1 16 hold-off 1 5001\n", 4)
                                          && refused("1 135 32 kind VC12\n", 4) && refused("1 136 31 kind VC12\n", 4));
    check("13 comes before 4", refused("2 1 16 hold-off 1 5001 7\n", 13));
    check("13 and 4 come before 9", refused_with("x\n", 13) && refused_with("65 1 16\n", 4));
    check("9: a length that is not the one told", needs_lengths());
    return tally();
}
