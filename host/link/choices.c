#include "choices.h"

#include <stdio.h>
#include <string.h>

#include "drawing.h"
#include "files.h"
#include "random.h"

enum { FRAME_MOST = 1000000000, EPOCH_MOST = FRAME_MOST / LEVELSPRUCE_EPOCH_FRAMES, EPOCHS_USUAL = 160 };

enum choice {
    SLOTS,
    PAYLOAD,
    WINDOW,
    PORTS,
    DELAYS,
    FIRST,
    NUMBERS,
    FIXED,
    VC12,
    BACK,
    NUMBER,
    ADD,
    REMOVE,
    DAMAGE,
    FAIL,
    HOLD_OFF,
    RESTORE,
    LAPSE,
    LATE,
    AT_ONCE,
    SEED,
    EPOCHS,
    FILE_IN,
    FILE_OUT,
    RECORD,
    HEADS,
    DOUBTFUL,
    BEHIND,
    EACH,
    QUIET,
    HELP,
    VERSION,
    CHOICES
};

/* Those up to EPOCHS shape the link, so that with one of them the default run's shape is not taken. */
static const struct {
    const char *name;
    int valued;
} known[CHOICES] = { { "--slots", 1 },   { "--payload", 1 },      { "--window", 1 },   { "--ports", 1 },    { "--delays", 1 },  { "--first", 1 },
                     { "--numbers", 1 }, { "--fixed", 0 },        { "--vc12", 0 },     { "--back", 1 },     { "--number", 1 },  { "--add", 1 },
                     { "--remove", 1 },  { "--damage", 1 },       { "--fail", 1 },     { "--hold-off", 1 }, { "--restore", 1 }, { "--lapse", 1 },
                     { "--late", 1 },    { "--at-once", 0 },      { "--seed", 1 },     { "--epochs", 1 },   { "--file", 1 },    { "--out", 1 },
                     { "--record", 1 },  { "--record-heads", 1 }, { "--doubtful", 0 }, { "--behind", 0 },   { "--each", 0 },    { "--quiet", 0 },
                     { "--help", 0 },    { "--version", 0 } };

/* The word given with each choice, or NULL. */
struct given {
    const char *word[CHOICES];
};

static int gather(struct given *g, int count, char **words)
{
    int i, which;

    memset(g, 0, sizeof *g);
    for (i = 0; i < count; i++) {
        for (which = 0; which < CHOICES && strcmp(words[i], known[which].name) != 0; which++)
            ;
        if (which == CHOICES) {
            fprintf(stderr, "link: there is no choice '%s'; --help names them\n", words[i]);
            return -1;
        }
        if (g->word[which] != NULL) {
            fprintf(stderr, "link: %s is given twice\n", words[i]);
            return -1;
        }
        if (known[which].valued && i + 1 == count) {
            fprintf(stderr, "link: %s wants a value behind it; --help says which\n", words[i]);
            return -1;
        }
        g->word[which] = known[which].valued ? words[++i] : "";
    }
    return 0;
}

static int wrong(enum choice which, const char *wanted, const char *word)
{
    fprintf(stderr, "link: %s wants %s, not '%s'\n", known[which].name, wanted, word);
    return -1;
}

/* Reads a number of decimal digits and goes past it. */
static int take_number(const char **at, uint64_t most, uint64_t *value)
{
    uint64_t n = 0;

    if (**at < '0' || **at > '9')
        return -1;
    for (; **at >= '0' && **at <= '9'; (*at)++) {
        n = 10 * n + (uint64_t)(**at - '0');
        if (n > most)
            return -1;
    }
    *value = n;
    return 0;
}

static int take_mark(const char **at, char mark)
{
    if (**at != mark)
        return -1;
    (*at)++;
    return 0;
}

/* The end of a list, or the comma before its next part: 1, 0, or -1 where it is neither. */
static int list_ends(const char **at)
{
    if (**at == '\0')
        return 1;
    return take_mark(at, ',');
}

static int read_number(const struct given *g, enum choice which, uint64_t least, uint64_t most, uint64_t *value)
{
    const char *at = g->word[which];
    char wanted[64];

    if (at == NULL)
        return 0;
    if (take_number(&at, most, value) == 0 && *at == '\0' && *value >= least)
        return 0;
    sprintf(wanted, "a number from %llu to %llu", (unsigned long long)least, (unsigned long long)most);
    return wrong(which, wanted, g->word[which]);
}

static int read_size(const struct given *g, enum choice which, uint32_t least, uint32_t most, uint32_t *value)
{
    uint64_t n = *value;

    if (read_number(g, which, least, most, &n) != 0)
        return -1;
    *value = (uint32_t)n;
    return 0;
}

static uint32_t parts_of(const char *list)
{
    uint32_t parts = 1;

    for (; *list != '\0'; list++)
        parts += *list == ',';
    return parts;
}

/* A number for each slot. */
static int read_each(const struct given *g, enum choice which, uint32_t slots, uint32_t most, uint32_t *each)
{
    const char *at = g->word[which];
    char wanted[96];
    uint32_t i;

    if (at == NULL)
        return 0;
    sprintf(wanted, "a number up to %lu for each of %lu slots, parted by commas", (unsigned long)most, (unsigned long)slots);
    for (i = 0; i < slots; i++) {
        uint64_t n;

        if (take_number(&at, most, &n) != 0 || list_ends(&at) != (i + 1 == slots))
            return wrong(which, wanted, g->word[which]);
        each[i] = (uint32_t)n;
    }
    return 0;
}

static int read_ports(const struct given *g, struct choices *c)
{
    uint32_t i, j;

    if (read_each(g, PORTS, c->slots, c->slots - 1, c->port) != 0)
        return -1;
    for (i = 0; i < c->slots; i++)
        for (j = 0; j < i; j++)
            if (c->port[i] == c->port[j])
                return wrong(PORTS, "each port once", g->word[PORTS]);
    return 0;
}

static int read_events(const struct given *g, enum choice which, uint32_t slots, struct events *events)
{
    static const char wanted[] = "EPOCH:SLOT,.. (a slot of the group) or none";
    const char *at = g->word[which];
    int ends = 0;

    if (at == NULL)
        return 0;
    events->count = 0;
    if (strcmp(at, "none") == 0)
        return 0;
    while (ends == 0) {
        uint64_t epoch, slot;

        if (take_number(&at, EPOCH_MOST, &epoch) != 0 || take_mark(&at, ':') != 0 || take_number(&at, slots - 1, &slot) != 0 || (ends = list_ends(&at)) < 0)
            return wrong(which, wanted, g->word[which]);
        if (events->count == EVENTS_MOST)
            return wrong(which, "256 at most", g->word[which]);
        events->each[events->count].epoch = epoch;
        events->each[events->count].slot = (uint32_t)slot;
        events->count++;
    }
    return 0;
}

static int read_failures(const struct given *g, uint32_t ports, struct failures *failures)
{
    static const char wanted[] = "PORT:FROM-TO,.. (a port of the group, FROM not above TO) or none";
    const char *at = g->word[FAIL];
    int ends = 0;

    if (at == NULL)
        return 0;
    failures->count = 0;
    if (strcmp(at, "none") == 0)
        return 0;
    while (ends == 0) {
        uint64_t port, from, to;

        if (take_number(&at, ports - 1, &port) != 0 || take_mark(&at, ':') != 0 || take_number(&at, FRAME_MOST, &from) != 0 || take_mark(&at, '-') != 0
            || take_number(&at, FRAME_MOST, &to) != 0 || from > to || (ends = list_ends(&at)) < 0)
            return wrong(FAIL, wanted, g->word[FAIL]);
        if (failures->count == EVENTS_MOST)
            return wrong(FAIL, "256 at most", g->word[FAIL]);
        failures->each[failures->count].port = (uint32_t)port;
        failures->each[failures->count].from = from;
        failures->each[failures->count].to = to;
        failures->count++;
    }
    return 0;
}

/* Every slot added before the first epoch, over lines that are all alike. */
static void shape_plainly(struct choices *c)
{
    uint32_t slot;

    c->back = 24;
    c->number = 20;
    c->adds.count = c->slots;
    for (slot = 0; slot < c->slots; slot++) {
        c->port[slot] = slot;
        c->delay[slot] = c->first[slot] = 0;
        c->sq[slot] = slot;
        c->adds.each[slot].epoch = 0;
        c->adds.each[slot].slot = slot;
    }
}

/* The default run. */
static void shape_by_default(struct choices *c)
{
    static const uint32_t ports[] = { 3, 0, 5, 1, 4, 2 };
    static const uint32_t delays[] = { 0, 7, 48, 19, 2, 33 };
    static const uint32_t firsts[] = { 0, 0, 5, 0, 20, 0 };

    c->slots = 6;
    shape_plainly(c);
    memcpy(c->port, ports, sizeof ports);
    memcpy(c->delay, delays, sizeof delays);
    memcpy(c->first, firsts, sizeof firsts);
    c->adds.each[5].epoch = 60;
    c->damages.count = 1;
    c->damages.each[0].epoch = 24;
    c->damages.each[0].slot = 1;
    c->failures.count = 1;
    c->failures.each[0].port = 5;
    c->failures.each[0].from = 560;
    c->failures.each[0].to = 879;
    c->removes.count = 1;
    c->removes.each[0].epoch = 110;
    c->removes.each[0].slot = 0;
    c->epochs = 128;
}

/* What goes by the kind of the group. */
static void shape_kind(struct choices *c)
{
    c->kind = c->fixed ? LEVELSPRUCE_KIND_FIXED : c->vc12 ? LEVELSPRUCE_KIND_VC12 : LEVELSPRUCE_KIND_H4;
    c->payload = c->vc12 ? LEVELSPRUCE_PAYLOAD_VC12 : LEVELSPRUCE_PAYLOAD_VC3;
    c->frames = c->vc12 ? LEVELSPRUCE_EPOCH_FRAMES_VC12 : LEVELSPRUCE_EPOCH_FRAMES;
    c->numbers = c->vc12 ? 32 : 256;
    c->least = c->vc12 ? LEVELSPRUCE_WINDOW_LEAST_VC12 : LEVELSPRUCE_WINDOW_LEAST;
}

static int read_sizes(const struct given *g, struct choices *c)
{
    if (read_size(g, SLOTS, 1, LEVELSPRUCE_SLOTS_MOST, &c->slots) != 0)
        return -1;
    if (c->vc12)
        return read_size(g, PAYLOAD, LEVELSPRUCE_PAYLOAD_VC12, LEVELSPRUCE_PAYLOAD_VC12, &c->payload) != 0
                    || read_size(g, WINDOW, LEVELSPRUCE_WINDOW_LEAST_VC12, LEVELSPRUCE_WINDOW_MOST_VC12, &c->window) != 0
                 ? -1
                 : 0;
    return read_size(g, PAYLOAD, 1, LEVELSPRUCE_PAYLOAD_MOST, &c->payload) != 0
                || read_size(g, WINDOW, LEVELSPRUCE_WINDOW_LEAST, LEVELSPRUCE_WINDOW_MOST, &c->window) != 0
             ? -1
             : 0;
}

/* Shapes the link from the sizes given, the seed, or neither. */
static int shape(struct choices *c, const struct given *g)
{
    struct random random;
    int drawn = g->word[SEED] != NULL, which = 0;

    while (which <= EPOCHS && g->word[which] == NULL)
        which++;
    if (which > EPOCHS) {
        shape_by_default(c);
        return 0;
    }
    random.now = 0;
    if (read_number(g, SEED, 0, UINT64_MAX / 10 - 1, &random.now) != 0)
        return -1;
    if (drawn)
        draw_sizes(c, &random);
    for (which = PORTS; which <= NUMBERS; which++)
        if (g->word[which] != NULL && parts_of(g->word[which]) <= LINES_MOST)
            c->slots = parts_of(g->word[which]);
    if (read_sizes(g, c) != 0)
        return -1;
    shape_plainly(c);
    if (drawn) {
        if (g->word[EPOCHS] == NULL)
            c->epochs += c->window / 4; /* each answer is on its way for longer */
        draw_lines(c, &random);
        draw_events(c, &random, c->epochs);
    }
    return 0;
}

/* Choices that go with LCAS alone, or with a group without it alone; and with H4 alone: P of VC-12 is 136, so that there are no heads. */
static int choices_agree(const struct given *g)
{
    static const enum choice lcas[] = { BACK, ADD, REMOVE, LAPSE }, h4[] = { FIXED, HEADS };
    size_t i;

    for (i = 0; g->word[VC12] != NULL && i < sizeof h4 / sizeof h4[0]; i++)
        if (g->word[h4[i]] != NULL) {
            fprintf(stderr, "link: %s does not go with --vc12\n", known[h4[i]].name);
            return -1;
        }
    if (g->word[FIXED] == NULL) {
        if (g->word[NUMBERS] == NULL)
            return 0;
        fprintf(stderr, "link: --numbers goes with --fixed, and there is no --fixed\n");
        return -1;
    }
    for (i = 0; i < sizeof lcas / sizeof lcas[0]; i++)
        if (g->word[lcas[i]] != NULL) {
            fprintf(stderr, "link: %s is of LCAS, which a group has not with --fixed\n", known[lcas[i]].name);
            return -1;
        }
    return 0;
}

/* The epochs for which the slowest line and the way back keep the first answer. */
static uint64_t epochs_on_the_way(const struct choices *c)
{
    uint32_t slot, most = 0;

    for (slot = 0; slot < c->slots; slot++)
        if (c->delay[slot] > most)
            most = c->delay[slot];
    return (most + c->back) / c->frames;
}

int choices_read(struct choices *c, int count, char **words)
{
    struct given g;

    memset(c, 0, sizeof *c);
    if (gather(&g, count, words) != 0)
        return -1;
    c->epochs = EPOCHS_USUAL;
    c->slots = 4;
    c->window = 64;
    c->lapse = 64;
    c->file = g.word[FILE_IN];
    c->whole_file = c->file != NULL && g.word[EPOCHS] == NULL;
    c->out = g.word[FILE_OUT];
    c->record = g.word[RECORD];
    c->heads = g.word[HEADS];
    c->doubtful = g.word[DOUBTFUL] != NULL;
    c->fixed = g.word[FIXED] != NULL;
    c->vc12 = g.word[VC12] != NULL;
    shape_kind(c);
    c->behind = g.word[BEHIND] != NULL;
    c->each = g.word[EACH] != NULL;
    c->quiet = g.word[QUIET] != NULL;
    c->help = g.word[HELP] != NULL;
    c->version = g.word[VERSION] != NULL;
    if (c->help || c->version)
        return 0;
    if (c->doubtful && c->out == NULL) {
        fprintf(stderr, "link: --doubtful adds to the file of --out, and there is no --out\n");
        return -1;
    }
    if (choices_agree(&g) != 0)
        return -1;
    if (read_number(&g, EPOCHS, 1, EPOCH_MOST, &c->epochs) != 0 || shape(c, &g) != 0 || read_ports(&g, c) != 0
        || read_each(&g, NUMBERS, c->slots, 255, c->sq) != 0 || read_each(&g, DELAYS, c->slots, DELAY_MOST, c->delay) != 0
        || read_each(&g, FIRST, c->slots, FRAME_MOST, c->first) != 0 || read_size(&g, BACK, 0, DELAY_MOST, &c->back) != 0
        || read_size(&g, NUMBER, 0, c->numbers - 1, &c->number) != 0 || read_events(&g, ADD, c->slots, &c->adds) != 0
        || read_events(&g, REMOVE, c->slots, &c->removes) != 0 || read_events(&g, DAMAGE, c->slots, &c->damages) != 0
        || read_failures(&g, c->slots, &c->failures) != 0 || read_size(&g, HOLD_OFF, 0, LEVELSPRUCE_TIMER_MOST, &c->hold_off) != 0
        || read_size(&g, RESTORE, 0, LEVELSPRUCE_TIMER_MOST, &c->restore) != 0 || read_size(&g, LAPSE, 1, FRAME_MOST, &c->lapse) != 0
        || read_size(&g, LATE, 0, LEVELSPRUCE_WINDOW_MOST, &c->late) != 0)
        return -1;
    if (g.word[AT_ONCE] != NULL)
        c->at_once = 1;
    /* neither a sender's table nor a way back */
    if (c->fixed)
        c->adds.count = c->removes.count = c->back = 0;
    if (g.word[EPOCHS] == NULL && (g.word[DELAYS] != NULL || g.word[BACK] != NULL))
        c->epochs += epochs_on_the_way(c);
    c->carried = c->epochs * c->frames * c->slots * c->payload;
    return files_differ(c);
}
