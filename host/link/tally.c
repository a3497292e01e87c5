#include "tally.h"

#include <inttypes.h>
#include <string.h>

int tally_open(struct tally *t, const char *out, int doubtful)
{
    memset(t, 0, sizeof *t);
    t->doubtful = doubtful;
    if (out == NULL)
        return 0;
    t->out = fopen(out, "wb");
    if (t->out == NULL)
        fprintf(stderr, "link: cannot write the file '%s'\n", out);
    return t->out == NULL ? -1 : 0;
}

void tally_report(struct tally *t, uint64_t epoch, const struct report *report, const uint8_t *bytes, const struct sending *sending, struct client *client,
                  struct says *says)
{
    const struct carried *carried = sending_carried(sending, epoch);
    int sure = report->mark == LEVELSPRUCE_MARK_SURE;
    int right = carried != NULL && carried->bytes == report->bytes && client_sent(client, carried->from, bytes, report->bytes);

    says_report(says, epoch, report->mark, report->cause, report->ports, report->bytes, right);
    t->epochs[report->mark]++;
    t->bytes[report->mark] += report->bytes;
    t->doubtful_right += report->mark == LEVELSPRUCE_MARK_DOUBTFUL && right;
    t->wrong += sure && !right;
    if (sure && right)
        client_came(client, carried->from, bytes, report->bytes);
    if (t->out != NULL && carried != NULL && (sure || t->doubtful))
        fwrite(bytes, 1, client_own(client, carried->from, report->bytes), t->out);
}

static void says_text(const struct client *client)
{
    size_t i;
    int at_start = 1;

    for (i = 0; i < client->length; i++) {
        if (at_start)
            printf("text\t");
        putchar(client->came[i]);
        at_start = client->came[i] == '\n';
    }
}

int tally_close(struct tally *t, const struct client *client)
{
    int failed = t->out != NULL && ferror(t->out), all_came = client_all_came(client);

    if (t->out != NULL && (fclose(t->out) != 0 || failed)) {
        fprintf(stderr, "link: what came out could not be written whole\n");
        return 2;
    }
    if (client->repeats && all_came)
        says_text(client);
    if (!client->repeats)
        printf("file\t%s\t%lu\t%s\n", client->cut ? "bytes more than" : "bytes", (unsigned long)client->length,
               all_came ? "all came out sure" : "not all came out sure");
    printf("held\tepochs\t%" PRIu64 "\n", t->epochs[LEVELSPRUCE_MARK_HELD]);
    printf("doubtful\tepochs\t%" PRIu64 "\n", t->epochs[LEVELSPRUCE_MARK_DOUBTFUL]);
    printf("doubtful\tbytes\t%" PRIu64 "\n", t->bytes[LEVELSPRUCE_MARK_DOUBTFUL]);
    printf("doubtful\tepochs as sent\t%" PRIu64 "\n", t->doubtful_right);
    printf("sure\tepochs\t%" PRIu64 "\n", t->epochs[LEVELSPRUCE_MARK_SURE]);
    printf("sure\tbytes\t%" PRIu64 "\n", t->bytes[LEVELSPRUCE_MARK_SURE]);
    if (t->wrong > 0)
        printf("a sure byte was wrong\tepochs\t%" PRIu64 "\n", t->wrong);
    else if (t->bytes[LEVELSPRUCE_MARK_SURE] == 0)
        printf("no byte was sure\n");
    else
        printf("each sure byte was right\n");
    return t->wrong > 0 || (!client->repeats && !all_came);
}
