/* The texts of the library: its version, what an answer and a cause mean, the names of control words, marks, states and waits. Nothing
 * else of it is C. */
#include <levelspruce.h>

const char *levelspruce_version(void)
{
    return LEVELSPRUCE_VERSION;
}

const char *levelspruce_answer_text(uint32_t answer)
{
    switch (answer) {
    case LEVELSPRUCE_ANSWER_DONE: return "done";
    case LEVELSPRUCE_ANSWER_SLOT: return "no such slot, port or group";
    case LEVELSPRUCE_ANSWER_STATE: return "not allowed now";
    case LEVELSPRUCE_ANSWER_WAIT: return "a wait is open";
    case LEVELSPRUCE_ANSWER_RANGE: return "a number is out of range";
    case LEVELSPRUCE_ANSWER_CRC: return "the packet's CRC differs";
    case LEVELSPRUCE_ANSWER_UNASSIGNED: return "the packet's control word is unassigned, or in a fixed group not FIXED";
    case LEVELSPRUCE_ANSWER_FIXED: return "the packet's control word is FIXED";
    case LEVELSPRUCE_ANSWER_FIELD: return "a field is too large, or its control word cannot be written";
    case LEVELSPRUCE_ANSWER_LENGTH: return "a buffer has the wrong length";
    case LEVELSPRUCE_ANSWER_FAILED: return "the frame came flagged as failed";
    case LEVELSPRUCE_ANSWER_OUTSIDE: return "the frame lies outside the window; hand it again after a report";
    case LEVELSPRUCE_ANSWER_STEP: return "the port is not in step after this frame";
    case LEVELSPRUCE_ANSWER_LINE: return "the first line of the recording cannot be read, or there is none";
    case LEVELSPRUCE_ANSWER_OWNED: return "the slot is not the group's own, or a slot to be claimed is owned already";
    case LEVELSPRUCE_ANSWER_USED: return "a slot to be released is not IDLE";
    default: return "no call answers this number";
    }
}

const char *levelspruce_cause_text(uint32_t cause)
{
    switch (cause) {
    case LEVELSPRUCE_CAUSE_NONE: return "none";
    case LEVELSPRUCE_CAUSE_REFUSED: return "a ruling packet was refused";
    case LEVELSPRUCE_CAUSE_LACKING: return "an active port lacks a frame";
    case LEVELSPRUCE_CAUSE_REPEATED: return "numbers of active and DNU ports repeat";
    case LEVELSPRUCE_CAUSE_GID: return "GID differs among ports that are not IDLE";
    case LEVELSPRUCE_CAUSE_EOS: return "EOS is not on the highest active port alone";
    case LEVELSPRUCE_CAUSE_UNSEEN: return "a port has no whole ruling packet";
    case LEVELSPRUCE_CAUSE_NUMBERS: return "the numbers are not 0 to n - 1";
    default: return "no report has this cause";
    }
}

const char *levelspruce_word_name(uint32_t word)
{
    switch (word) {
    case LEVELSPRUCE_WORD_FIXED: return "FIXED";
    case LEVELSPRUCE_WORD_ADD: return "ADD";
    case LEVELSPRUCE_WORD_NORM: return "NORM";
    case LEVELSPRUCE_WORD_EOS: return "EOS";
    case LEVELSPRUCE_WORD_IDLE: return "IDLE";
    case LEVELSPRUCE_WORD_DNU: return "DNU";
    default: return "unassigned";
    }
}

/* The name of a number below a limit. */
static const char *name_of(const char *const *names, uint32_t limit, uint32_t number)
{
    return number < limit ? names[number] : "unknown";
}

const char *levelspruce_mark_name(uint32_t mark)
{
    static const char *const names[] = { "none", "held", "doubtful", "sure" };

    return name_of(names, LEVELSPRUCE_MARK_SURE + 1, mark);
}

const char *levelspruce_state_name(uint32_t state)
{
    static const char *const names[] = { "IDLE", "FAIL", "OK" };

    return name_of(names, LEVELSPRUCE_PORT_OK + 1, state);
}

const char *levelspruce_waiting_name(uint32_t waiting)
{
    static const char *const names[] = { "none", "hold-off", "restore" };

    return name_of(names, LEVELSPRUCE_WAITING_RESTORE + 1, waiting);
}
