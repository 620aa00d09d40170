/*
 * Reads a table's file, decides it, and prints what the program `check` prints.
 *
 *     cc decide.c $(pkg-config --cflags --libs shuntberry) -o decide
 *     ./decide e.table && echo release
 *
 * The file is one for site 0, or for the site behind it. The program ends with 0 where the table is safe and all was
 * printed, 1 where it is unsafe, 2 where a call refuses, 3 for anything else, and 4 where it is undecided, or safe because
 * it has no states, or nothing in it is initial or nothing forbidden.
 */
#include "common.h"

static void print_safe(const struct shuntberry_decision *decision)
{
    printf("safe refinements %u\ninvariant %u:", (unsigned)decision->count, (unsigned)decision->size);
    for (unsigned state = 0; state < SHUNTBERRY_MAX_STATES; state++)
        if (shuntberry_has_state(decision->invariant, state))
            printf(" %u", state);
    puts(decision->size == 0 ? " none" : "");
}

static void print_unsafe(const struct shuntberry_decision *decision, const uint16_t *path)
{
    printf("unsafe refinements %u\npath", (unsigned)decision->count);
    for (unsigned step = 0; step <= decision->steps; step++)
        printf(" %u", (unsigned)path[step]);
    puts("");
}

/* Decides a table that was read; WELL if it is safe, and that says something. */
static enum status decide(const uint64_t *store, struct shuntberry_table table)
{
    static uint16_t path[SHUNTBERRY_PATH_PLACES];
    struct shuntberry_decision decision = shuntberry_decide(
        store, SHUNTBERRY_STORE_WORDS, table.n, table.g, SHUNTBERRY_MAX_ALLOWANCE, path, SHUNTBERRY_PATH_PLACES);

    if (decision.refusal != SHUNTBERRY_ACCEPTED)
        return print_refused(decision.refusal);
    printf("states %u groups %u\n", (unsigned)table.n, (unsigned)table.g);
    if (decision.verdict == SHUNTBERRY_SAFE) {
        print_safe(&decision);
        enum status said = says_something(store, table.n);
        return shuntberry_is_safe(decision, table.n) ? said : EMPTY;
    }
    if (decision.verdict == SHUNTBERRY_UNSAFE) {
        print_unsafe(&decision, path);
        return NO;
    }
    if (decision.verdict == SHUNTBERRY_UNDECIDED) { /* never with SHUNTBERRY_MAX_ALLOWANCE */
        printf("undecided refinements %u\n", (unsigned)decision.count);
        return EMPTY;
    }
    fprintf(stderr, "unknown verdict %u\n", (unsigned)decision.verdict);
    return FAILED;
}

int main(int argc, char **argv)
{
    static uint64_t store[SHUNTBERRY_STORE_WORDS];
    struct shuntberry_table table;
    size_t site;

    if (argc < 2 || argc > 3 || !is_site(argv[2], &site)) {
        fprintf(stderr, "usage: decide FILE [SITE]\n");
        return FAILED;
    }
    enum status status = read_table(argv[1], site, store, &table);
    return printed(status == WELL ? decide(store, table) : status);
}
