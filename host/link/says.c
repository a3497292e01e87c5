#include "says.h"

#include <inttypes.h>
#include <stdio.h>
#include <stdlib.h>
#include <string.h>
#include <time.h>

void must(uint8_t answer, const char *call)
{
    if (answer == LEVELSPRUCE_ANSWER_DONE)
        return;
    fflush(stdout);
    fprintf(stderr, "link: %s was answered %d: %s\n", call, answer, levelspruce_answer_text(answer));
    exit(2);
}

/* The ports of a report's cause, where it has some. */
static void says_these(uint64_t ports)
{
    uint32_t i;

    if (ports != 0)
        printf("\t%s", (ports & (ports - 1)) == 0 ? "port" : "ports");
    for (i = 0; i < LINES_MOST; i++)
        if (ports >> i & 1)
            printf("\t%" PRIu32, i);
}

void says_end(struct says *s)
{
    const struct alike *a = &s->alike;

    if (!a->some)
        return;
    if (a->first == a->last)
        printf("epoch\t%" PRIu64, a->first);
    else
        printf("epochs\t%" PRIu64 "\tto\t%" PRIu64, a->first, a->last);
    printf("\t%s", levelspruce_mark_name(a->mark));
    if (a->mark != LEVELSPRUCE_MARK_HELD)
        printf("\t%s\t%lu\t%s", a->first == a->last ? "bytes" : "bytes each", (unsigned long)a->bytes, a->right ? "as sent" : "not as sent");
    if (a->cause != LEVELSPRUCE_CAUSE_NONE)
        printf("\tcause\t%s", levelspruce_cause_text(a->cause));
    says_these(a->ports);
    printf("\n");
    s->alike.some = 0;
}

/* Whether lines are said. What is not said yet comes before the next one. */
static int talks(struct says *s)
{
    if (!s->quiet)
        says_end(s);
    return !s->quiet;
}

static void says_events(const char *what, const struct events *events)
{
    size_t i;

    for (i = 0; i < events->count; i++)
        printf("plan\t%s\tepoch\t%" PRIu64 "\tslot\t%" PRIu32 "\n", what, events->each[i].epoch, events->each[i].slot);
}

void says_link(struct says *s, const struct choices *c)
{
    const uint8_t idle = c->vc12 ? LEVELSPRUCE_NUMBER_IDLE_VC12 : LEVELSPRUCE_NUMBER_IDLE;
    uint32_t slot;
    size_t i;

    memset(s, 0, sizeof *s);
    s->quiet = c->quiet;
    s->each = c->each;
    s->slots = c->slots;
    s->x = LEVELSPRUCE_MEMBERS_MOST + 1;
    s->going[LEVELSPRUCE_BOARD_COUNT] = (uint8_t)c->slots;
    for (slot = 0; slot < LINES_MOST; slot++) {
        s->going[LEVELSPRUCE_BOARD_ROWS + 2 * slot] = LEVELSPRUCE_WORD_IDLE;
        s->going[LEVELSPRUCE_BOARD_ROWS + 2 * slot + 1] = idle;
        s->ports[slot][LEVELSPRUCE_PORT_NUMBER] = idle;
        s->behind[slot] = LEVELSPRUCE_BEHIND_NONE;
    }
    if (s->quiet)
        return;
    printf("link\tslots\t%" PRIu32 "\n", c->slots);
    printf("link\tpayload\t%" PRIu32 "\n", c->payload);
    printf("link\twindow\t%" PRIu32 "\n", c->window);
    printf("link\tnumber of epoch 0\t%" PRIu32 "\n", c->number);
    if (c->vc12)
        printf("link\tVC-12\n");
    if (c->fixed)
        printf("link\tFIXED\n");
    else
        printf("link\tback\t%" PRIu32 "\n", c->back);
    printf("link\thold-off\t%" PRIu32 "\n", c->hold_off);
    printf("link\trestore\t%" PRIu32 "\n", c->restore);
    if (c->at_once)
        printf("reports\tat once\n");
    else
        printf("reports\tone in %s frames\tlate\t%" PRIu32 "\n", c->vc12 ? "32" : "sixteen", c->late);
    for (slot = 0; slot < c->slots; slot++)
        printf("line\tslot\t%" PRIu32 "\tport\t%" PRIu32 "\tdelay\t%" PRIu32 "\tfirst frame\t%" PRIu32 "\n", slot, c->port[slot], c->delay[slot],
               c->first[slot]);
    for (slot = 0; c->fixed && slot < c->slots; slot++)
        printf("slot\t%" PRIu32 "\tsends\tFIXED\t%" PRIu32 "\n", slot, c->sq[slot]);
    says_events("add", &c->adds);
    says_events("remove", &c->removes);
    says_events("damage", &c->damages);
    for (i = 0; i < c->failures.count; i++)
        printf("plan\tfail\tport\t%" PRIu32 "\tframes\t%" PRIu64 "\t%" PRIu64 "\n", c->failures.each[i].port, c->failures.each[i].from, c->failures.each[i].to);
}

void says_command(struct says *s, const char *command, uint32_t slot, uint8_t answer)
{
    if (talks(s))
        printf("%s\tslot\t%" PRIu32 "\tanswer\t%d\n", command, slot, answer);
}

void says_wait(struct says *s, const uint8_t *board, const char *closed_by)
{
    if (board[LEVELSPRUCE_BOARD_WAIT] != s->wait && talks(s)) {
        if (board[LEVELSPRUCE_BOARD_WAIT])
            printf("wait\topen\n");
        else
            printf("wait\tclosed\tby %s\n", closed_by);
    }
    s->wait = board[LEVELSPRUCE_BOARD_WAIT];
}

/* The slots whose word or number has changed since the board told last, a line each: the lines of levelspruce_board_speak, which are not
 * asked for here, so that the link needs the calls of one crate alone. The wait has been told when it opened or closed. */
static void says_changes(const uint8_t *told, const uint8_t *going)
{
    size_t row;

    for (row = LEVELSPRUCE_BOARD_ROWS; row < LEVELSPRUCE_BOARD_BYTES; row += 2)
        if (memcmp(told + row, going + row, 2) != 0)
            printf("slot\t%lu\twas\t%s\t%d\tnow\t%s\t%d\n", (unsigned long)(row - LEVELSPRUCE_BOARD_ROWS) / 2, levelspruce_word_name(told[row]), told[row + 1],
                   levelspruce_word_name(going[row]), going[row + 1]);
}

void says_start(struct says *s, uint64_t epoch, uint32_t x, size_t bytes, const uint8_t *going)
{
    uint8_t told[LEVELSPRUCE_BOARD_BYTES];

    memcpy(told, s->going, sizeof told);
    memcpy(s->going, going, sizeof s->going);
    if ((s->x == x && memcmp(told + LEVELSPRUCE_BOARD_ROWS, going + LEVELSPRUCE_BOARD_ROWS, sizeof told - LEVELSPRUCE_BOARD_ROWS) == 0) || !talks(s))
        return;
    printf("start\tepoch\t%" PRIu64 "\tmembers\t%" PRIu32 "\tbytes\t%lu\n", epoch, x, (unsigned long)bytes);
    says_changes(told, going);
    s->x = x;
}

void says_told(struct says *s, uint64_t epoch, uint32_t mst, uint32_t rs_ack)
{
    if (talks(s))
        printf("told\tepoch\t%" PRIu64 "\tMST\t%02" PRIX32 "\tRS-Ack\t%" PRIu32 "\n", epoch, mst, rs_ack);
}

/* How a port does, in a word. */
static const char *condition(const uint8_t *port)
{
    if (port[LEVELSPRUCE_PORT_FAILED])
        return "failed";
    if (port[LEVELSPRUCE_PORT_READABLE])
        return "readable";
    return port[LEVELSPRUCE_PORT_STEP] ? "in step" : "out of step";
}

static int some_readable(const struct says *s, const uint8_t (*ports)[LEVELSPRUCE_PORT_BYTES])
{
    uint32_t i;

    for (i = 0; i < s->slots; i++)
        if (ports[i][LEVELSPRUCE_PORT_READABLE])
            return 1;
    return 0;
}

void says_ports(struct says *s, const uint8_t (*ports)[LEVELSPRUCE_PORT_BYTES], uint8_t rs_ack, uint64_t time)
{
    int reads = some_readable(s, ports);
    uint32_t i;

    if (reads != some_readable(s, (const uint8_t(*)[LEVELSPRUCE_PORT_BYTES])s->ports) && talks(s))
        printf("receiving\t%s\tframe\t%" PRIu64 "\n", reads ? "begins" : "stops", time);
    for (i = 0; i < s->slots; i++) {
        const uint8_t *now = ports[i], *before = s->ports[i];

        if (strcmp(condition(now), condition(before)) != 0 && talks(s))
            printf("port\t%" PRIu32 "\t%s\tframe\t%" PRIu64 "\n", i, condition(now), time);
        if ((now[LEVELSPRUCE_PORT_STATE] != before[LEVELSPRUCE_PORT_STATE] || now[LEVELSPRUCE_PORT_NUMBER] != before[LEVELSPRUCE_PORT_NUMBER]) && talks(s))
            printf("port\t%" PRIu32 "\t%s\t%d\n", i, levelspruce_state_name(now[LEVELSPRUCE_PORT_STATE]), now[LEVELSPRUCE_PORT_NUMBER]);
        if (now[LEVELSPRUCE_PORT_WAITING] != before[LEVELSPRUCE_PORT_WAITING] && talks(s))
            printf("port\t%" PRIu32 "\twaiting\t%s\n", i, levelspruce_waiting_name(now[LEVELSPRUCE_PORT_WAITING]));
    }
    if (rs_ack != s->rs_ack && talks(s))
        printf("reply\tRS-Ack\t%d\n", rs_ack);
    memcpy(s->ports, ports, s->slots * sizeof s->ports[0]);
    s->rs_ack = rs_ack;
}

void says_behind(struct says *s, const uint32_t *behind)
{
    uint32_t i;

    for (i = 0; i < s->slots; i++) {
        if (behind[i] != s->behind[i] && behind[i] != LEVELSPRUCE_BEHIND_NONE && talks(s))
            printf("port\t%" PRIu32 "\tbehind\t%" PRIu32 "\n", i, behind[i]);
        s->behind[i] = behind[i];
    }
}

void says_report(struct says *s, uint64_t epoch, uint8_t mark, uint8_t cause, uint64_t ports, size_t bytes, int right)
{
    struct alike *a = &s->alike;
    int goes_on = a->some && !s->each && a->mark == mark && a->cause == cause && a->ports == ports && a->bytes == bytes && a->right == right
               && a->last + 1 == epoch;

    if (s->quiet)
        return;
    if (!goes_on) {
        says_end(s);
        a->first = epoch;
        a->mark = mark;
        a->cause = cause;
        a->ports = ports;
        a->bytes = bytes;
        a->right = right;
        a->some = 1;
    }
    a->last = epoch;
}

void says_progress(const struct says *s, const char *what, uint64_t done, uint64_t all)
{
    static time_t last;
    time_t now = time(NULL);

    if (s->quiet)
        return;
    if (last == 0)
        last = now;
    if (now - last < 2)
        return;
    last = now;
    fprintf(stderr, "progress\t%s\t%" PRIu64 "\tof\t%" PRIu64 "\n", what, done, all);
}
