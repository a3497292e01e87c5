/* What happens, as plain lines: one fact a line, fields parted by tabs. */
#ifndef SAYS_H
#define SAYS_H

#include <levelspruce.h>

#include "choices.h"

/* Reports in a row that say the same. */
struct alike {
    uint64_t first, last;
    uint8_t mark, cause;
    uint64_t ports; /* of the cause, a bit each */
    size_t bytes;
    int right;
    int some; /* whether there is one */
};

struct says {
    int quiet;
    int each; /* each report by itself */
    uint32_t slots;
    struct alike alike;                     /* reports that are not said yet */
    uint8_t wait;                           /* as last said */
    uint8_t going[LEVELSPRUCE_BOARD_BYTES]; /* the board told last */
    uint32_t x;
    uint8_t ports[LINES_MOST][LEVELSPRUCE_PORT_BYTES];
    uint8_t rs_ack;
    uint32_t behind[LINES_MOST];
};

/* Ends the program where a call is refused that cannot be. */
void must(uint8_t answer, const char *call);

/* The link as it was chosen. */
void says_link(struct says *s, const struct choices *c);

/* A command at the sender, and its answer. */
void says_command(struct says *s, const char *command, uint32_t slot, uint8_t answer);

/* That the wait has opened or closed, on the sender's board, since this was last called; one that is closed was closed by
 * that. */
void says_wait(struct says *s, const uint8_t *board, const char *closed_by);

/* An epoch starts at the sender: its members, the bytes it carries, and the changes to this board, which goes out, where
 * something has changed. */
void says_start(struct says *s, uint64_t epoch, uint32_t x, size_t bytes, const uint8_t *going);

/* What came back from the far end, in the packet of that epoch of its own. */
void says_told(struct says *s, uint64_t epoch, uint32_t mst, uint32_t rs_ack);

/* What the receiver's ports and its reply have that they had not when this was last called. */
void says_ports(struct says *s, const uint8_t (*ports)[LEVELSPRUCE_PORT_BYTES], uint8_t rs_ack, uint64_t time);

/* How many frames each port in step lies behind the foremost, of those of which it is another than when this was last called. */
void says_behind(struct says *s, const uint32_t *behind);

/* The report of an epoch, why it is held or doubtful, and by which ports. Those that say the same stand in one line, which is printed before the next other
 * one. */
void says_report(struct says *s, uint64_t epoch, uint8_t mark, uint8_t cause, uint64_t ports, size_t bytes, int right);

/* Says the reports that are not said yet. */
void says_end(struct says *s);

/* How far a long run has come, on standard error: how many of all such there are. */
void says_progress(const struct says *s, const char *what, uint64_t done, uint64_t all);

#endif
