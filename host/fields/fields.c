#include "fields.h"

#include <string.h>

int is(const struct field *f, const char *word)
{
    return f->length == strlen(word) && memcmp(f->text, word, f->length) == 0;
}

/* The value of a digit, 16 or more for what is none. */
static uint32_t digit(char c)
{
    if (c >= '0' && c <= '9')
        return (uint32_t)(c - '0');
    if (c >= 'a' && c <= 'f')
        return (uint32_t)(c - 'a') + 10;
    if (c >= 'A' && c <= 'F')
        return (uint32_t)(c - 'A') + 10;
    return 16;
}

static int number(const struct field *f, size_t least, size_t most, uint32_t base, uint32_t *n)
{
    size_t i;

    *n = 0;
    for (i = 0; i < f->length && digit(f->text[i]) < base; i++)
        *n = i < most ? base * *n + digit(f->text[i]) : 0;
    return i == f->length && f->length >= least && f->length <= most;
}

int decimal(const struct field *f, uint32_t *n)
{
    return number(f, 1, 3, 10, n);
}

int hex_byte(const struct field *f, uint32_t *n)
{
    return number(f, 2, 2, 16, n);
}

size_t parted(const char *text, size_t length, struct field *fields)
{
    size_t count = 0, at = 0, i;

    for (i = 0; i <= length; i++)
        if (i == length || text[i] == '\t') {
            if (count == FIELDS_MOST)
                return FIELDS_MOST + 1;
            fields[count].text = text + at;
            fields[count].length = i - at;
            count++;
            at = i + 1;
        }
    return count;
}

int next_text(FILE *file, char text[LINE_MOST], size_t *length)
{
    int c;

    *length = 0;
    while ((c = getc(file)) != EOF && c != '\n') {
        if (*length < LINE_MOST)
            text[*length] = (char)c;
        if (*length <= LINE_MOST)
            (*length)++;
    }
    return c != EOF || *length != 0;
}
