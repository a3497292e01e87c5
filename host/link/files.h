/* Whether the files that are written are different ones. */
#ifndef FILES_H
#define FILES_H

#include "choices.h"

/* 0, or -1 where two names are of one file: then a line on standard error says which. Of files that are not there yet only the
 * names can be compared, so it is asked again once they are. */
int files_differ(const struct choices *c);

#endif
