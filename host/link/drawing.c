#include "drawing.h"

enum { STORE_MOST = 4 << 20 };

static uint32_t number_below(struct random *r, uint64_t limit)
{
    return (uint32_t)random_below(r, limit);
}

void draw_sizes(struct choices *c, struct random *r)
{
    static const uint32_t windows[] = { 16, 17, 31, 64, 100, 2048 }, vc12_windows[] = { 32, 33, 64, 100, 512 };
    uint32_t payload_most;

    c->slots = 1 + number_below(r, random_below(r, 4) == 0 ? LEVELSPRUCE_SLOTS_MOST : 8);
    if (c->vc12) {
        c->window = random_below(r, 2) == 0 ? vc12_windows[random_below(r, 5)] : LEVELSPRUCE_WINDOW_LEAST_VC12 + number_below(r, 200);
        return;
    }
    c->window = random_below(r, 2) == 0 ? windows[random_below(r, 6)] : LEVELSPRUCE_WINDOW_LEAST + number_below(r, 500);
    payload_most = STORE_MOST / (c->slots * c->window) - 1;
    if (payload_most > LEVELSPRUCE_PAYLOAD_MOST)
        payload_most = LEVELSPRUCE_PAYLOAD_MOST;
    if (payload_most > 40 && random_below(r, 2) == 0)
        payload_most = 40;
    c->payload = 1 + number_below(r, payload_most);
}

/* The numbers from 0 on, one for each slot, in any order. */
static void draw_order(struct random *r, uint32_t slots, uint32_t *each)
{
    uint32_t slot;

    for (slot = 0; slot < slots; slot++)
        each[slot] = slot;
    for (slot = slots; slot > 1; slot--) {
        uint32_t other = number_below(r, slot), number = each[other];

        each[other] = each[slot - 1];
        each[slot - 1] = number;
    }
}

void draw_lines(struct choices *c, struct random *r)
{
    uint32_t slot;

    draw_order(r, c->slots, c->port);
    if (c->fixed)
        draw_order(r, c->slots, c->sq);
    for (slot = 0; slot < c->slots; slot++) {
        c->delay[slot] = number_below(r, c->window - c->least + 1);
        c->first[slot] = number_below(r, 64);
    }
    c->back = number_below(r, 100);
    c->number = number_below(r, c->numbers);
    c->late = random_below(r, 2) == 0 ? 0 : number_below(r, c->window);
    c->at_once = random_below(r, 4) == 0;
}

static void put_event(struct events *events, uint64_t epoch, uint32_t slot)
{
    if (events->count < EVENTS_MOST) {
        events->each[events->count].epoch = epoch;
        events->each[events->count].slot = slot;
        events->count++;
    }
}

void draw_events(struct choices *c, struct random *r, uint64_t epochs)
{
    uint64_t n;
    uint32_t slot;

    c->adds.count = c->removes.count = c->damages.count = c->failures.count = 0;
    for (slot = 0; slot < c->slots; slot++)
        put_event(&c->adds, random_below(r, 4) == 0 ? random_below(r, epochs / 2 + 1) : 0, slot);
    for (n = random_below(r, 3); n > 0; n--)
        put_event(&c->removes, epochs / 2 + random_below(r, epochs / 2 + 1), number_below(r, c->slots));
    for (n = random_below(r, 4); n > 0; n--)
        put_event(&c->damages, random_below(r, epochs), number_below(r, c->slots));
    for (n = random_below(r, 3); n > 0; n--) {
        struct failure *failure = &c->failures.each[c->failures.count++];

        failure->port = number_below(r, c->slots);
        failure->from = random_below(r, epochs * c->frames);
        failure->to = failure->from + random_below(r, 1000);
    }
    c->hold_off = random_below(r, 2) == 0 ? 0 : number_below(r, 60);
    c->restore = random_below(r, 2) == 0 ? 0 : number_below(r, 20);
}
