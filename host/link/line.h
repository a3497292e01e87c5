/* A line from a slot to a port: frames come out in order, each some frame times after it went in. */
#ifndef LINE_H
#define LINE_H

#include <stddef.h>
#include <stdint.h>

struct line {
    uint64_t delay;
    uint64_t next, end; /* the frames on their way are those from next to before end */
    size_t frame_bytes; /* payload, and its H4 byte behind it */
    size_t room;
    uint8_t *frames; /* frame n stands at place n modulo room */
};

/* 0, or -1 where there is no memory. */
int line_open(struct line *l, uint32_t delay, uint64_t first, uint32_t payload);

/* Where frame n goes in, to be filled; NULL where it comes before the first that the line carries. Where the far end
 * has not taken frames for long, the oldest one is lost. */
uint8_t *line_put(struct line *l, uint64_t n);

/* The frame that comes out at this time, or NULL. It stays the next one until it is taken. */
const uint8_t *line_next(const struct line *l, uint64_t time);

void line_take(struct line *l);

/* The number of the frame that comes out next. */
uint64_t line_number(const struct line *l);

/* The number of the frame taken last, of a line of which one was. */
uint64_t line_last(const struct line *l);

/* Whether nothing is on its way. */
int line_is_empty(const struct line *l);

void line_close(struct line *l);

#endif
