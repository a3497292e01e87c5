/* C99 has no way to tell two names of one file, POSIX has. */
#define _POSIX_C_SOURCE 200809L

#include "files.h"

#include <stdio.h>
#include <string.h>
#include <sys/stat.h>

/* What is no plain file, as /dev/null, may be written from two sides. */
static int are_one(const char *one, const char *other)
{
    struct stat a, b;

    if (stat(one, &a) != 0 || stat(other, &b) != 0)
        return strcmp(one, other) == 0;
    return S_ISREG(a.st_mode) && a.st_dev == b.st_dev && a.st_ino == b.st_ino;
}

int files_differ(const struct choices *c)
{
    const char *const names[] = { "--out", "--record", "--record-heads" };
    const char *const files[] = { c->out, c->record, c->heads };
    size_t i, j;

    for (i = 0; i < sizeof files / sizeof *files; i++)
        for (j = 0; j < i; j++)
            if (files[i] != NULL && files[j] != NULL && are_one(files[i], files[j])) {
                fprintf(stderr, "link: %s and %s are one file, '%s'\n", names[j], names[i], files[i]);
                return -1;
            }
    return 0;
}
