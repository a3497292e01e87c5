/* A link drawn from a seed. */
#ifndef DRAWING_H
#define DRAWING_H

#include "choices.h"
#include "random.h"

/* Sizes whose store is not too large to be tried many times. */
void draw_sizes(struct choices *c, struct random *r);

/* Ports, numbers of a group without LCAS, delays that the window bears, first frames, the way back, the pace of reports. */
void draw_lines(struct choices *c, struct random *r);

/* Adding, removing, damage, failures and the ports' times, for a run of so many epochs. */
void draw_events(struct choices *c, struct random *r, uint64_t epochs);

#endif
