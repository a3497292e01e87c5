/*
 * Writes one packet and reads it back: an unused member's word IDLE with number 255, all members reported FAIL.
 * Prints one fact a line, fields parted by tabs.
 */
#include <levelspruce.h>

#include <stdio.h>

int main(void)
{
    uint8_t h4[LEVELSPRUCE_PACKET_BYTES];
    uint8_t fields[LEVELSPRUCE_FIELDS_BYTES];
    uint32_t reserved;
    uint8_t answer;
    int i;

    answer = levelspruce_packet_write(0, LEVELSPRUCE_WORD_IDLE, 0, 0xFF, 0, 255, 0, h4, sizeof h4);
    printf("call\twrite\n");
    printf("answer\t%d\n", answer);
    if (answer != LEVELSPRUCE_ANSWER_DONE)
        return 1;
    for (i = 0; i < LEVELSPRUCE_PACKET_BYTES; i++)
        printf("byte\t%d\t%02X\n", i, h4[i]);

    answer = levelspruce_packet_read(h4, sizeof h4, fields, sizeof fields);
    printf("call\tread\n");
    printf("answer\t%d\n", answer);
    if (answer != LEVELSPRUCE_ANSWER_DONE)
        return 1;
    printf("epoch\t%d\n", fields[LEVELSPRUCE_FIELD_EPOCH]);
    printf("word\t%s\t%d\n", levelspruce_word_name(fields[LEVELSPRUCE_FIELD_WORD]), fields[LEVELSPRUCE_FIELD_WORD]);
    printf("gid\t%d\n", fields[LEVELSPRUCE_FIELD_GID]);
    printf("mst\t%02X\n", fields[LEVELSPRUCE_FIELD_MST]);
    printf("rs-ack\t%d\n", fields[LEVELSPRUCE_FIELD_RS_ACK]);
    printf("sq\t%d\n", fields[LEVELSPRUCE_FIELD_SQ]);
    reserved = (uint32_t)fields[LEVELSPRUCE_FIELD_RESERVED] << 24 | (uint32_t)fields[LEVELSPRUCE_FIELD_RESERVED + 1] << 16
             | (uint32_t)fields[LEVELSPRUCE_FIELD_RESERVED + 2] << 8 | fields[LEVELSPRUCE_FIELD_RESERVED + 3];
    printf("reserved\t%lu\n", (unsigned long)reserved);
    return 0;
}
