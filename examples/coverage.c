/*
 * Walks a pump's log through a table and prints how far it goes and how much of the table it covers.
 *
 *     cc coverage.c $(pkg-config --cflags --libs shuntberry) -o coverage
 *     ./coverage b.table LOG
 *
 * A log is a list of state numbers, two bytes each, low byte first. For the log 0 1 4 on table B:
 *
 *     followed 2 of 3 entries, broken by 4
 *     seen 2 states
 *     coverage 50 % remainder 0
 *
 * The first line ends after `entries` where all are followed. What a call refuses is printed as `refused` with its
 * number. It ends with 0 where all of the log is followed and all was printed, 1 where the log breaks, 2 where a call
 * refuses, 3 for anything else, and 4 where the log has no entries or the table no states: nothing was walked.
 */
#include "common.h"

/* One entry more than a log can have, so that a longer one is seen to be too long. */
static uint8_t log_bytes[SHUNTBERRY_MAX_LOG + 2];

/* Reads a log. One that is too long is cut to a length that is too long still, and odd if the log's is. */
static enum status read_log(const char *name, size_t *length)
{
    FILE *file = opened(name, log_bytes, sizeof log_bytes, length);
    if (file == NULL)
        return FAILED;
    if (*length == sizeof log_bytes)
        for (int odd = 1; getc(file) != EOF; odd = !odd)
            *length = sizeof log_bytes - (size_t)odd;
    return closed(file, name);
}

/* Walks the log that was read; WELL if all of it is followed. */
static enum status walk(const uint64_t *store, struct shuntberry_table table, size_t length)
{
    struct shuntberry_replay walked =
        shuntberry_replay(store, SHUNTBERRY_STORE_WORDS, table.n, table.g, log_bytes, length);
    const unsigned entries = (unsigned)length / 2;

    if (walked.refusal != SHUNTBERRY_ACCEPTED)
        return print_refused(walked.refusal);
    printf("followed %u of %u entries", (unsigned)walked.followed, entries);
    if (walked.followed < entries)
        printf(", broken by %u", log_bytes[2 * walked.followed] + 256u * log_bytes[2 * walked.followed + 1]);
    printf("\nseen %u states\n", (unsigned)walked.seen);
    printf("coverage %u %% remainder %u\n", (unsigned)walked.percent, (unsigned)walked.remainder);
    if (walked.followed < entries)
        return NO;
    return entries > 0 ? WELL : EMPTY;
}

int main(int argc, char **argv)
{
    static uint64_t store[SHUNTBERRY_STORE_WORDS];
    struct shuntberry_table table;
    size_t length;

    if (argc != 3) {
        fprintf(stderr, "usage: coverage TABLE LOG\n");
        return FAILED;
    }
    enum status status = read_log(argv[2], &length);
    if (status == WELL)
        status = read_table(argv[1], 0, store, &table);
    return printed(status == WELL ? walk(store, table, length) : status);
}
