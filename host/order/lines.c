#include "lines.h"

#include <levelspruce.h>

#include "../fields/fields.h"

static const struct {
    const char *word;
    uint32_t kind;
} commands[] = {
    { "add", LEVELSPRUCE_COMMAND_ADD },
    { "remove", LEVELSPRUCE_COMMAND_REMOVE },
    { "claim", LEVELSPRUCE_COMMAND_CLAIM },
    { "release", LEVELSPRUCE_COMMAND_RELEASE },
};

static int report(const struct field *f, struct line *line)
{
    int reads = decimal(&f[1], &line->group) && decimal(&f[2], &line->a) && hex_byte(&f[3], &line->b) && decimal(&f[4], &line->c);

    return reads && line->a <= 255 && line->c <= 1;
}

/* Whether it is a command, with a group and a slot behind its word. */
static int command(const struct field *f, struct line *line)
{
    size_t i;

    for (i = 0; i < sizeof commands / sizeof *commands; i++)
        if (is(&f[0], commands[i].word)) {
            line->word = commands[i].word;
            line->command = commands[i].kind;
            return decimal(&f[1], &line->group) && decimal(&f[2], &line->a);
        }
    return 0;
}

/* The lines with a group alone behind their word. */
static enum line_kind of_group(const struct field *f, struct line *line)
{
    static const struct {
        const char *word;
        enum line_kind kind;
    } known[] = { { "lapse", LINE_LAPSE }, { "board", LINE_BOARD }, { "owned", LINE_OWNED } };
    size_t i;

    for (i = 0; i < sizeof known / sizeof *known; i++)
        if (is(&f[0], known[i].word)) {
            line->word = known[i].word;
            return decimal(&f[1], &line->group) ? known[i].kind : LINE_MALFORMED;
        }
    return LINE_MALFORMED;
}

static enum line_kind meant(const char *text, size_t length, struct line *line)
{
    struct field f[FIELDS_MOST];
    size_t count = parted(text, length, f);

    if (count == 2 && is(&f[0], "size") && decimal(&f[1], &line->a)) {
        line->word = "size";
        return LINE_SIZE;
    }
    if (count == 2)
        return of_group(f, line);
    if (count == 3 && command(f, line))
        return LINE_COMMAND;
    if (count == 5 && is(&f[0], "report") && report(f, line)) {
        line->word = "report";
        return LINE_REPORT;
    }
    return LINE_MALFORMED;
}

int next_line(FILE *file, struct line *line)
{
    char text[LINE_MOST];
    size_t length;

    if (!next_text(file, text, &length))
        return 0;
    line->kind = length > LINE_MOST ? LINE_MALFORMED : meant(text, length, line);
    return 1;
}
