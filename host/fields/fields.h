/* Lines of tab-parted fields, by the session's limits: a line of at most 80 bytes, a number of one to three digits. */
#ifndef FIELDS_H
#define FIELDS_H

#include <stddef.h>
#include <stdint.h>
#include <stdio.h>

enum { LINE_MOST = 80, FIELDS_MOST = 5, ANSWER_MALFORMED = 13 };

struct field {
    const char *text;
    size_t length;
};

/* The next line of a file without its end, which the last may lack, and its length: one more than the most where it is too
 * long. 0 where there is none. */
int next_text(FILE *file, char text[LINE_MOST], size_t *length);

/* The fields of a text; one more than the most where there are more. */
size_t parted(const char *text, size_t length, struct field *fields);

int is(const struct field *f, const char *word);

int decimal(const struct field *f, uint32_t *n);

/* Two hex digits, in capitals or not. */
int hex_byte(const struct field *f, uint32_t *n);

#endif
