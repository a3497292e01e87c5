/* The texts of the library: its version, what answers mean, the names of control words, marks, states and waits. */
#include <levelspruce.h>

#include <string.h>

#include "check.h"

/* One English line: some words, and no line end. */
static int is_line(const char *text)
{
    return strlen(text) >= 4 && strlen(text) < 100 && strchr(text, '\n') == NULL && strchr(text, '\t') == NULL;
}

/* Whether the numbers below a limit have texts that are all different. */
static int all_differ(const char *(*text)(uint32_t), uint32_t limit)
{
    uint32_t i, j;

    for (i = 0; i < limit; i++)
        for (j = 0; j < i; j++)
            if (strcmp(text(i), text(j)) == 0)
                return 0;
    return 1;
}

/* Whether the numbers from 0 on have these names, and all others are unknown. */
static int named_so(const char *(*name)(uint32_t), const char *const *names, uint32_t count)
{
    static const uint32_t beyond[] = { 255, 256, 257, 0xFFFFFFFFu };
    uint32_t i;

    for (i = 0; i < count; i++)
        if (strcmp(name(i), names[i]) != 0)
            return 0;
    for (i = 0; i < COUNT(beyond); i++)
        if (strcmp(name(beyond[i]), "unknown") != 0)
            return 0;
    return strcmp(name(count), "unknown") == 0;
}

static void causes(void)
{
    static const uint32_t beyond[] = { LEVELSPRUCE_CAUSE_NUMBERS + 1, 255, 256 + LEVELSPRUCE_CAUSE_GID, 0xFFFFFFFFu };
    uint32_t i;
    int lines = 1, same = 1;

    for (i = 0; i < 300; i++)
        lines = lines && is_line(levelspruce_cause_text(i));
    for (i = 0; i < COUNT(beyond); i++)
        same = same && strcmp(levelspruce_cause_text(beyond[i]), "no report has this cause") == 0;
    check("every cause has a text of one line", lines);
    check("the causes of reports have different texts",
          all_differ(levelspruce_cause_text, LEVELSPRUCE_CAUSE_NUMBERS + 1) && strcmp(levelspruce_cause_text(LEVELSPRUCE_CAUSE_NONE), "none") == 0
              && strcmp(levelspruce_cause_text(LEVELSPRUCE_CAUSE_REFUSED), "a ruling packet was refused") == 0
              && strcmp(levelspruce_cause_text(LEVELSPRUCE_CAUSE_NUMBERS), "the numbers are not 0 to n - 1") == 0);
    check("a number that is no cause is said to be none", same);
}

static void names(void)
{
    static const char *const marks[] = { "none", "held", "doubtful", "sure" };
    static const char *const states[] = { "IDLE", "FAIL", "OK" };
    static const char *const waits[] = { "none", "hold-off", "restore" };

    check("the marks have their names, and all others none", named_so(levelspruce_mark_name, marks, COUNT(marks))
                                                                 && strcmp(levelspruce_mark_name(LEVELSPRUCE_MARK_HELD), "held") == 0
                                                                 && strcmp(levelspruce_mark_name(LEVELSPRUCE_MARK_SURE), "sure") == 0);
    check("so have the states", named_so(levelspruce_state_name, states, COUNT(states)) && strcmp(levelspruce_state_name(LEVELSPRUCE_PORT_FAIL), "FAIL") == 0);
    check("so has what a port waits for",
          named_so(levelspruce_waiting_name, waits, COUNT(waits)) && strcmp(levelspruce_waiting_name(LEVELSPRUCE_WAITING_HOLD_OFF), "hold-off") == 0);
}

int main(void)
{
    static const uint32_t beyond[] = { LEVELSPRUCE_ANSWER_USED + 1, 17, 255, 256, 0xFFFFFFFFu };
    static const struct {
        uint32_t word;
        const char *name;
    } words[] = { { LEVELSPRUCE_WORD_FIXED, "FIXED" },
                  { LEVELSPRUCE_WORD_ADD, "ADD" },
                  { LEVELSPRUCE_WORD_NORM, "NORM" },
                  { LEVELSPRUCE_WORD_EOS, "EOS" },
                  { LEVELSPRUCE_WORD_IDLE, "IDLE" },
                  { LEVELSPRUCE_WORD_DNU, "DNU" },
                  { 4, "unassigned" },
                  { 6, "unassigned" },
                  { 14, "unassigned" },
                  { 16, "unassigned" },
                  { 256 + LEVELSPRUCE_WORD_ADD, "unassigned" } };
    uint32_t i;
    int lines = 1, same = 1, named = 1;

    check("the library has the header's version", strcmp(levelspruce_version(), LEVELSPRUCE_VERSION) == 0);
    for (i = 0; i < 300; i++)
        lines = lines && is_line(levelspruce_answer_text(i));
    for (i = 0; i < COUNT(beyond); i++)
        same = same && strcmp(levelspruce_answer_text(beyond[i]), "no call answers this number") == 0;
    check("every answer has a text of one line", lines);
    check("the answers of the calls have different texts", all_differ(levelspruce_answer_text, LEVELSPRUCE_ANSWER_USED + 1));
    check("a number that no call answers is said to be one", same);
    for (i = 0; i < COUNT(words); i++)
        named = named && strcmp(levelspruce_word_name(words[i].word), words[i].name) == 0;
    check("the control words have their names, and all others none", named);
    causes();
    names();
    return tally();
}
