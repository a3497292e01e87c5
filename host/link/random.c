#include "random.h"

uint64_t random_below(struct random *r, uint64_t limit)
{
    uint64_t x;

    r->now += 0x9E3779B97F4A7C15u;
    x = r->now;
    x = (x ^ (x >> 30)) * 0xBF58476D1CE4E5B9u;
    x = (x ^ (x >> 27)) * 0x94D049BB133111EBu;
    return (x ^ (x >> 31)) % limit;
}
