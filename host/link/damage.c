#include "damage.h"

#include "random.h"

/* Of the 64 bits of a packet, the first nibble's lowest. */
static uint64_t bits_of(uint64_t epoch)
{
    struct random random;
    uint64_t left, changed = 0;

    random.now = epoch;
    for (left = 1 + random_below(&random, 3); left > 0;) {
        uint64_t bit = (uint64_t)1 << random_below(&random, 64);

        if ((changed & bit) == 0) {
            changed |= bit;
            left--;
        }
    }
    return changed;
}

/* The one place of a VC-12 packet, behind its count of five bits. */
static uint64_t place_of(uint64_t epoch)
{
    struct random random;

    random.now = epoch;
    return 5 + random_below(&random, LEVELSPRUCE_PACKET_BYTES_VC12 - 5);
}

uint8_t damage(const struct choices *c, uint32_t slot, uint64_t n)
{
    uint64_t epoch = n / c->frames, place = n % c->frames;
    size_t i;

    for (i = 0; i < c->damages.count; i++)
        if (c->damages.each[i].epoch == epoch && c->damages.each[i].slot == slot)
            return c->vc12 ? place == place_of(epoch) : (uint8_t)((bits_of(epoch) >> 4 * place & 15) << 4);
    return 0;
}

int damage_is_of_number(const struct choices *c, uint64_t n)
{
    return !c->vc12 && n % LEVELSPRUCE_EPOCH_FRAMES / 2 == 4;
}
