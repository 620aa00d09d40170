/*
 * Draws steps into a table and rubs them out, and prints which states can be reached after each. The file is not
 * changed.
 *
 *     cc edits.c $(pkg-config --cflags --libs shuntberry) -o edits
 *     ./edits b.table 1-2 4+2 0+4 5+0
 *
 * A+B adds the step from A to B, A-B removes it. For table B:
 *
 *     reached 4: 0 1 2 3
 *     1-2 reached 2: 0 1
 *     4+2 reached 2: 0 1
 *     0+4 reached 5: 0 1 2 3 4
 *     5+0 refused 27
 *
 * An edit that is refused counts as none; a table that is refused is printed as `refused` with the number alone.
 * It ends with 0 where all was accepted and printed, 2 where a call refuses, 3 for anything else, and 4 where the
 * table has no states.
 */
#include <ctype.h>
#include <stdlib.h>

#include "common.h"

struct step {
    size_t from, to;
    char sign; /* '+' or '-' */
};

/* The step of a word such as 4+2; 0 if it is none. A number that is too large stays so, and is refused. */
static int step_of(const char *word, struct step *step)
{
    char *end;
    if (!isdigit((unsigned char)*word))
        return 0;
    step->from = strtoul(word, &end, 10);
    step->sign = *end;
    if ((step->sign != '+' && step->sign != '-') || !isdigit((unsigned char)end[1]))
        return 0;
    step->to = strtoul(end + 1, &end, 10);
    return *end == '\0';
}

static void print_reached(struct shuntberry_set set)
{
    unsigned count = 0;
    for (unsigned state = 0; state < SHUNTBERRY_MAX_STATES; state++)
        count += (unsigned)shuntberry_has_state(set.words, state);
    printf("reached %u:%s", count, count == 0 ? " none" : "");
    for (unsigned state = 0; state < SHUNTBERRY_MAX_STATES; state++)
        if (shuntberry_has_state(set.words, state))
            printf(" %u", state);
    printf("\n");
}

/* Prints what a call of the session gave. */
static enum status print_session(struct shuntberry_session now)
{
    if (now.refusal != SHUNTBERRY_ACCEPTED)
        return print_refused(now.refusal);
    print_reached(now.reachable);
    return WELL;
}

/* Opens a table that was read and makes the edits; WELL if it has states and no call refuses. */
static enum status edit(uint64_t *store, struct shuntberry_table table, int words, char **word)
{
    const size_t length = SHUNTBERRY_STORE_WORDS;
    struct shuntberry_session now = shuntberry_open(store, length, table.n, table.g);
    enum status status = print_session(now);
    for (int k = 0; k < words; k++) {
        struct step step;
        step_of(word[k], &step);
        now = step.sign == '+' ? shuntberry_add_step(store, length, table.n, table.g, now.reachable, step.from, step.to)
                               : shuntberry_remove_step(store, length, table.n, table.g, now.reachable, step.from, step.to);
        printf("%s ", word[k]);
        if (print_session(now) != WELL)
            status = REFUSED;
    }
    return status == WELL && table.n == 0 ? EMPTY : status;
}

int main(int argc, char **argv)
{
    static uint64_t store[SHUNTBERRY_STORE_WORDS];
    struct shuntberry_table table;
    struct step step;
    int called_right = argc >= 2;

    for (int k = 2; k < argc; k++)
        called_right &= step_of(argv[k], &step);
    if (!called_right) {
        fprintf(stderr, "usage: edits TABLE [FROM+TO | FROM-TO]..\n");
        return FAILED;
    }
    enum status status = read_table(argv[1], 0, store, &table);
    return printed(status == WELL ? edit(store, table, argc - 2, argv + 2) : status);
}
