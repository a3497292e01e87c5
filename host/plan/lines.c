#include "lines.h"

#include <string.h>

enum { DIGITS_MOST = 9, LINE_MOST = 96 };

struct text {
    const char *at;
    size_t length;
};

/* Takes the next field of a line, up to a tab or the end, and goes past the tab. */
static int take_field(struct text *line, struct text *field)
{
    const char *tab;

    if (line->at == NULL)
        return 0;
    tab = memchr(line->at, '\t', line->length);
    field->at = line->at;
    field->length = tab == NULL ? line->length : (size_t)(tab - line->at);
    line->length -= field->length + (tab == NULL ? 0 : 1);
    line->at = tab == NULL ? NULL : tab + 1;
    return 1;
}

static int take_word(struct text *line, const char *word)
{
    struct text field;

    return take_field(line, &field) && field.length == strlen(word) && memcmp(field.at, word, field.length) == 0;
}

static int take_number(struct text *line, uint32_t *number)
{
    struct text field;
    size_t i;

    if (!take_field(line, &field) || field.length < 1 || field.length > DIGITS_MOST)
        return 0;
    for (*number = 0, i = 0; i < field.length; i++) {
        if (field.at[i] < '0' || field.at[i] > '9')
            return 0;
        *number = 10 * *number + (uint32_t)(field.at[i] - '0');
    }
    return 1;
}

/* Whether a byte is a control character, by itself or, in UTF-8, behind the one before it. */
static int is_control(const char *at, size_t i)
{
    unsigned char byte = (unsigned char)at[i];

    return byte < 0x20 || byte == 0x7F || (i > 0 && (unsigned char)at[i - 1] == 0xC2 && byte >= 0x80 && byte < 0xA0);
}

/* Takes a name, which a terminal or a speech synthesiser is to be handed as it stands. Whether it could be is said by *why. */
static int take_name(struct text *line, unsigned long number, struct named *name, const char **why)
{
    struct text field;
    size_t i;

    if (!take_field(line, &field) || field.length < 1)
        return 0;
    if (field.length > NAME_MOST) {
        *why = "name above 60 bytes";
        return 0;
    }
    for (i = 0; i < field.length; i++)
        if (is_control(field.at, i)) {
            *why = "control character in the name";
            return 0;
        }
    memcpy(name->name, field.at, field.length);
    name->length = field.length;
    name->line = number;
    return 1;
}

int same_name(const struct named *one, const struct named *other)
{
    return one->length == other->length && memcmp(one->name, other->name, one->length) == 0;
}

static int take_first(struct text line, struct lines *lines)
{
    return take_word(&line, "join") && take_number(&line, &lines->wanted) && take_word(&line, "window") && take_number(&line, &lines->window)
        && line.at == NULL;
}

/* Of two paths with one name nobody could say which is meant. */
static int take_path(struct text line, unsigned long number, struct lines *lines, struct wrong *wrong)
{
    struct named name;
    uint32_t delay;
    size_t i;

    if (!take_word(&line, "path") || !take_name(&line, number, &name, &wrong->why) || !take_word(&line, "delay") || !take_number(&line, &delay)
        || line.at != NULL)
        return 0;
    for (i = 0; i < lines->count; i++)
        if (same_name(&lines->paths[i], &name)) {
            wrong->why = "name as in line";
            wrong->other = lines->paths[i].line;
            return 0;
        }
    if (lines->count < PATHS_KEPT) {
        lines->paths[lines->count] = name;
        lines->delays[lines->count] = delay;
        lines->count++;
    }
    return 1;
}

/* No set of more than the most is right, so that one more is enough to keep. */
static int take_taken(struct text line, unsigned long number, struct lines *lines, struct wrong *wrong)
{
    struct named name;

    if (!take_word(&line, "take") || !take_name(&line, number, &name, &wrong->why) || line.at != NULL)
        return 0;
    lines->takes++;
    if (lines->taken_count < PATHS_KEPT)
        lines->taken[lines->taken_count++] = name;
    return 1;
}

static int take_line(struct text line, unsigned long number, int proposal, struct lines *lines, struct wrong *wrong)
{
    struct text first = line;

    if (number == 1)
        return take_first(line, lines);
    if (!take_word(&first, "take"))
        return take_path(line, number, lines, wrong);
    wrong->why = "take is for --check";
    if (!proposal)
        return 0;
    wrong->why = "malformed";
    return take_taken(line, number, lines, wrong);
}

/* Reads one line without its end. Of a line that is too long to be right, one byte too many is kept. -1: no line is left. */
static int read_line(FILE *from, char *kept, size_t *length)
{
    int c = getc(from);

    if (c == EOF)
        return -1;
    for (*length = 0; c != EOF && c != '\n'; c = getc(from))
        if (*length <= LINE_MOST)
            kept[(*length)++] = (char)c;
    return 0;
}

int lines_read(FILE *from, int proposal, struct lines *lines, struct wrong *wrong)
{
    char kept[LINE_MOST + 1];
    struct text line;

    memset(lines, 0, sizeof *lines);
    for (wrong->line = 1; read_line(from, kept, &line.length) == 0; wrong->line++) {
        line.at = kept;
        wrong->other = 0;
        wrong->why = "malformed";
        if (line.length > LINE_MOST || !take_line(line, wrong->line, proposal, lines, wrong))
            return -1;
    }
    wrong->why = "malformed";
    return wrong->line == 1 ? -1 : 0;
}
