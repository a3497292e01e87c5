/* What a refusal means, in words that are short to hear: by the first word of the line that was refused, since one number can
 * have several causes. */
#ifndef ANSWERS_H
#define ANSWERS_H

#include <stdint.h>

/* The words for an answer other than 0. */
const char *refusal(const char *word, uint8_t answer);

#endif
