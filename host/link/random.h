/* Numbers that look random and are the same for the same seed. */
#ifndef RANDOM_H
#define RANDOM_H

#include <stdint.h>

struct random {
    uint64_t now;
};

/* A number below the limit, which is not 0. */
uint64_t random_below(struct random *r, uint64_t limit);

#endif
