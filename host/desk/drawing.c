#include "drawing.h"

#include <stdio.h>
#include <stdlib.h>
#include <string.h>

enum { FIELDS_MOST = 24, LINE_MOST = 256 };

/* A line's fields; `epoch` and `line` are the places of the numbers behind these two words, or 0. `why` is what a report that is not sure
 * says behind the word 'cause', or empty. */
struct fields {
    char text[LINE_MOST];
    const char *field[FIELDS_MOST], *why;
    size_t count, epoch, line;
};

/* Lines that are alike: the first of them, how many there are, the last one's epoch and line, and from each line to the next how many. */
static struct {
    struct fields first;
    unsigned long count, epoch, line, apart;
} run;

static struct counts counts;

static unsigned long number(const char *field)
{
    return strtoul(field, NULL, 10);
}

/* What stands behind the word 'cause', which is cut off with its tab. */
static const char *part_why(char *line)
{
    static const char tab_cause[] = "\tcause\t";
    char *found = strstr(line, tab_cause);

    if (found == NULL)
        return "";
    *found = '\0';
    return found + sizeof tab_cause - 1;
}

static void part(struct fields *fields, const char *line, size_t length)
{
    char *at = fields->text;

    if (length >= LINE_MOST)
        length = LINE_MOST - 1;
    memcpy(fields->text, line, length);
    fields->text[length] = '\0';
    fields->why = part_why(fields->text);
    fields->count = fields->epoch = fields->line = 0;
    while (at != NULL && fields->count < FIELDS_MOST) {
        char *tab = strchr(at, '\t');

        if (tab != NULL)
            *tab++ = '\0';
        fields->field[fields->count++] = at;
        at = tab;
    }
    if (fields->count > 1 && strcmp(fields->field[0], "epoch") == 0)
        fields->epoch = 1;
    for (size_t i = 1; i + 1 < fields->count; i++)
        if (strcmp(fields->field[i], "line") == 0)
            fields->line = i + 1;
}

/* Whether an epoch is the next one; they are counted up to 255, of VC-12 up to 31. */
static int follows(unsigned long epoch, unsigned long before)
{
    return epoch == before + 1 || (epoch == 0 && (before == 255 || before == 31));
}

/* Whether the line belongs to the run. */
static int is_alike(const struct fields *next)
{
    unsigned long line;

    if (run.count == 0 || strcmp(next->why, run.first.why) != 0)
        return 0;
    if (next->line == 0 || next->line != run.first.line || next->epoch != run.first.epoch || next->count != run.first.count)
        return 0;
    for (size_t i = 0; i < next->count; i++)
        if (i != next->line && (i == 0 || i != next->epoch) && strcmp(next->field[i], run.first.field[i]) != 0)
            return 0;
    line = number(next->field[next->line]);
    if (next->epoch != 0 && !follows(number(next->field[next->epoch]), run.epoch))
        return 0;
    return line >= run.line && (run.count == 1 || line - run.line == run.apart);
}

/* What a refusal means. */
static const char *words(const struct fields *refusal)
{
    return number(refusal->field[1]) == LEVELSPRUCE_ANSWER_LINE ? "malformed" : "settings out of range";
}

static void print_run(void)
{
    const struct fields *first = &run.first;

    for (size_t i = 0; run.count > 0 && i < first->count; i++) {
        const char *tab = i == 0 ? "" : "\t";

        if (run.count > 1 && i == 0 && first->epoch != 0)
            printf("epochs");
        else if (run.count > 1 && i + 1 == first->line)
            printf("%slines", tab);
        else
            printf("%s%s", tab, first->field[i]);
        if (run.count > 1 && i != 0 && i == first->epoch)
            printf("\tto\t%lu", run.epoch);
        if (run.count > 1 && i != 0 && i == first->line)
            printf("\tto\t%lu", run.line);
    }
    if (run.count > 1)
        printf("\tcount\t%lu", run.count);
    if (run.count > 0 && strcmp(first->field[0], "answer") == 0)
        printf("\t%s", words(first));
    if (run.count > 0 && *first->why != '\0')
        printf("\tcause\t%s", first->why);
    if (run.count > 0)
        putchar('\n');
    run.count = 0;
}

static int is_mark(const char *field, uint32_t mark)
{
    return strcmp(field, levelspruce_mark_name(mark)) == 0;
}

/* The number of the cause whose words these are, up to a tab; 0 where there are none. */
static uint32_t cause_of(const char *why)
{
    size_t length = strcspn(why, "\t");

    for (uint32_t cause = 1; cause < CAUSES; cause++) {
        const char *text = levelspruce_cause_text(cause);

        if (strlen(text) == length && memcmp(text, why, length) == 0)
            return cause;
    }
    return LEVELSPRUCE_CAUSE_NONE;
}

static void count(const struct fields *fields)
{
    if (fields->epoch != 0 && fields->count > 2) {
        int doubtful = is_mark(fields->field[2], LEVELSPRUCE_MARK_DOUBTFUL), held = is_mark(fields->field[2], LEVELSPRUCE_MARK_HELD);
        uint32_t cause = cause_of(fields->why);

        counts.sure += is_mark(fields->field[2], LEVELSPRUCE_MARK_SURE);
        counts.doubtful += doubtful;
        counts.held += held;
        counts.doubtful_by[cause] += doubtful;
        counts.held_by[cause] += held;
    } else if (strcmp(fields->field[0], "answer") == 0) {
        counts.refused++;
        counts.malformed += number(fields->field[1]) == LEVELSPRUCE_ANSWER_LINE;
    } else if (strcmp(fields->field[0], "port") == 0 && number(fields->field[1]) < LEVELSPRUCE_PORTS_MOST) {
        counts.changes[number(fields->field[1])]++;
    }
}

void draw(const char *line, size_t length)
{
    static struct fields next;

    part(&next, line, length);
    count(&next);
    if (!is_alike(&next)) {
        print_run();
        part(&run.first, line, length);
        run.apart = 0;
    } else {
        run.apart = number(next.field[next.line]) - run.line;
    }
    run.count++;
    run.epoch = next.epoch == 0 ? 0 : number(next.field[next.epoch]);
    run.line = next.line == 0 ? 0 : number(next.field[next.line]);
}

const struct counts *drawn(void)
{
    print_run();
    return &counts;
}
