/* Damage on a line. */
#ifndef DAMAGE_H
#define DAMAGE_H

#include <stdint.h>

#include "choices.h"

/* The bits that are changed in the H4 byte of a slot's frame n. Of a packet that is damaged one to three bits are, others in other
 * epochs; never of the low nibbles, which count the frames. Of VC-12 one bit is, and never of the count. */
uint8_t damage(const struct choices *c, uint32_t slot, uint64_t n);

/* Whether frame n carries a nibble of the multiframe's number that may be changed. */
int damage_is_of_number(const struct choices *c, uint64_t n);

#endif
