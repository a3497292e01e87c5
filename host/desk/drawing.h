/* What a replay prints, drawn together: reports and refusals that come one behind the other and are alike but for their epoch and the
 * number of their line are one line. Reports that are not sure say why, and are alike where cause and port are the same. */
#ifndef DRAWING_H
#define DRAWING_H

#include <stddef.h>

#include <levelspruce.h>

enum { CAUSES = LEVELSPRUCE_CAUSE_NUMBERS + 1 };

/* What was printed in all. */
struct counts {
    unsigned long sure, doubtful, held, refused, malformed;
    unsigned long doubtful_by[CAUSES], held_by[CAUSES];
    unsigned long changes[LEVELSPRUCE_PORTS_MOST];
};

/* Takes one line as a turn has written it, without its end. */
void draw(const char *line, size_t length);

/* Prints what is not printed yet, and gives the counts. */
const struct counts *drawn(void);

#endif
