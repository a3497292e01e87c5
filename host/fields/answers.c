#include "answers.h"

#include <levelspruce.h>

#include <string.h>

#include "fields.h"

/* The first row that fits; a row without a word fits any. */
static const struct {
    uint8_t answer;
    const char *word, *text;
} texts[] = {
    { LEVELSPRUCE_ANSWER_SLOT, "report", "no such group" },
    { LEVELSPRUCE_ANSWER_SLOT, "lapse", "no such group" },
    { LEVELSPRUCE_ANSWER_SLOT, "board", "no such group" },
    { LEVELSPRUCE_ANSWER_SLOT, "owned", "no such group" },
    { LEVELSPRUCE_ANSWER_SLOT, NULL, "no such slot" },
    { LEVELSPRUCE_ANSWER_STATE, "add", "in use already" },
    { LEVELSPRUCE_ANSWER_STATE, "remove", "not in use" },
    { LEVELSPRUCE_ANSWER_STATE, "lapse", "no wait is open" },
    { LEVELSPRUCE_ANSWER_WAIT, NULL, "a wait is open" },
    { LEVELSPRUCE_ANSWER_RANGE, "size", "not 1 to 64" },
    { ANSWER_MALFORMED, NULL, "malformed" },
    { LEVELSPRUCE_ANSWER_OWNED, "claim", "owned already" },
    { LEVELSPRUCE_ANSWER_OWNED, NULL, "not this group's" },
    { LEVELSPRUCE_ANSWER_USED, NULL, "not IDLE" },
};

const char *refusal(const char *word, uint8_t answer)
{
    size_t i;

    for (i = 0; i < sizeof texts / sizeof *texts; i++)
        if (texts[i].answer == answer && (texts[i].word == NULL || strcmp(texts[i].word, word) == 0))
            return texts[i].text;
    return levelspruce_answer_text(answer);
}
