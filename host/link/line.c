#include "line.h"

#include <stdlib.h>

/* Frames that may wait because the receiver answered 11. */
enum { WAITING_MOST = 64 };

int line_open(struct line *l, uint32_t delay, uint64_t first, uint32_t payload)
{
    l->delay = delay;
    l->next = l->end = first;
    l->frame_bytes = (size_t)payload + 1;
    l->room = (size_t)delay + 1 + WAITING_MOST;
    l->frames = malloc(l->room * l->frame_bytes);
    return l->frames == NULL ? -1 : 0;
}

static uint8_t *frame_at(const struct line *l, uint64_t n)
{
    return l->frames + (size_t)(n % l->room) * l->frame_bytes;
}

uint8_t *line_put(struct line *l, uint64_t n)
{
    if (n < l->end)
        return NULL;
    if (l->end - l->next == l->room)
        l->next++;
    l->end = n + 1;
    return frame_at(l, n);
}

const uint8_t *line_next(const struct line *l, uint64_t time)
{
    if (l->next == l->end || l->next + l->delay > time)
        return NULL;
    return frame_at(l, l->next);
}

void line_take(struct line *l)
{
    l->next++;
}

uint64_t line_number(const struct line *l)
{
    return l->next;
}

uint64_t line_last(const struct line *l)
{
    return l->next - 1;
}

int line_is_empty(const struct line *l)
{
    return l->next == l->end;
}

void line_close(struct line *l)
{
    free(l->frames);
}
