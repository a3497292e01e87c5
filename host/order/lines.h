/* A planner's lines. */
#ifndef LINES_H
#define LINES_H

#include <stdint.h>
#include <stdio.h>

enum line_kind { LINE_MALFORMED, LINE_SIZE, LINE_COMMAND, LINE_REPORT, LINE_LAPSE, LINE_BOARD, LINE_OWNED };

struct line {
    enum line_kind kind;
    const char *word; /* its first */
    uint32_t command; /* the kind of a command, as the call has it */
    uint32_t group, a, b, c;
};

/* The next line of a file, which may lack its end. 0 where there is none. */
int next_line(FILE *file, struct line *line);

#endif
