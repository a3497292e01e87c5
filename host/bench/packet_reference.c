/* Reading a control packet in C, its CRC bit by bit. It is compiled by each C compiler at hand, with the name READ given on
 * the command line.
 */
#include <stddef.h>
#include <stdint.h>

uint8_t READ(const uint8_t *h4, size_t h4_length, uint8_t *fields, size_t fields_length);

/* the remainder of the first 56 bits by x^8 + x^2 + x + 1 */
static uint8_t crc(const uint8_t *h4)
{
    unsigned rest = 0;
    for (int i = 0; i < 14; i++)
        for (int bit = 7; bit >= 4; bit--) {
            unsigned out = (rest >> 7 ^ h4[i] >> bit) & 1;
            rest = (rest << 1 & 0xFF) ^ (out ? 0x07 : 0);
        }
    return (uint8_t)rest;
}

static uint8_t two(const uint8_t *h4, int place)
{
    return (uint8_t)((h4[place] & 0xF0) | h4[place + 1] >> 4);
}

uint8_t READ(const uint8_t *h4, size_t h4_length, uint8_t *fields, size_t fields_length)
{
    uint8_t word;
    uint32_t reserved;
    if (h4_length != 16 || fields_length != 10)
        return 9;
    if (two(h4, 14) != crc(h4))
        return 5;
    word = h4[10] >> 4;
    if (word == 0)
        return 7;
    if (word != 1 && word != 2 && word != 3 && word != 5 && word != 15)
        return 6;
    fields[0] = two(h4, 8);
    fields[1] = word;
    fields[2] = h4[11] >> 4 & 1;
    fields[3] = two(h4, 0);
    fields[4] = h4[2] >> 4 & 1;
    fields[5] = two(h4, 6);
    reserved = (uint32_t)(h4[2] >> 5) << 23 | (uint32_t)two(h4, 3) << 15 | (uint32_t)(h4[5] >> 4) << 11 | (uint32_t)(h4[11] >> 5) << 8 | two(h4, 12);
    fields[6] = (uint8_t)(reserved >> 24);
    fields[7] = (uint8_t)(reserved >> 16);
    fields[8] = (uint8_t)(reserved >> 8);
    fields[9] = (uint8_t)reserved;
    return 0;
}
