/*
 * Reads the choices of the example link and tries its files, and does nothing else. It needs nothing that is proved, so
 * that a wrong value need not wait for the proofs.
 */
#include <stdio.h>

#include "../link/choices.h"
#include "../link/client.h"
#include "../link/files.h"

/* Whether a file can be written, if one is named. */
static int can_write(const char *file)
{
    FILE *to;

    if (file == NULL)
        return 1;
    to = fopen(file, "ab");
    if (to != NULL && fclose(to) == 0)
        return 1;
    fprintf(stderr, "link: cannot write the file '%s'\n", file);
    return 0;
}

int main(int count, char **words)
{
    static struct choices c;
    struct client client;

    if (choices_read(&c, count - 1, words + 1) != 0)
        return 2;
    if (client_open(&client, &c) != 0)
        return 2;
    client_close(&client);
    return can_write(c.out) && can_write(c.record) && can_write(c.heads) && files_differ(&c) == 0 ? 0 : 2;
}
