/*
 * What the examples share: how they end, a table out of its file, and a look whether all could be printed.
 *
 * They end as the command `check` does: 0 says that all is well and was printed whole, 1 that the answer is no,
 * 2 that something was refused, and 3 that there is no answer, because the program was called wrongly or could not
 * open, read or print. They end with 4 where an answer says nothing: of a table without states, as a file is that was
 * lost on the way here, and of a safe one in which nothing is initial or nothing is forbidden.
 */
#ifndef SHUNTBERRY_EXAMPLES_COMMON_H
#define SHUNTBERRY_EXAMPLES_COMMON_H

#include <stdio.h>
#include <stdlib.h>
#include <string.h>

#include "shuntberry.h"

enum status { WELL, NO, REFUSED, FAILED, EMPTY };

/* The first bytes of a file at the front of a buffer, as many as fit; the file stays open. NULL if it cannot be read. */
static inline FILE *opened(const char *name, uint8_t *bytes, size_t room, size_t *length)
{
    FILE *file = fopen(name, "rb");
    if (file == NULL) {
        perror(name);
        return NULL;
    }
    *length = fread(bytes, 1, room, file);
    return file;
}

/* Closes a file; WELL if all that was read of it could be read. */
static inline enum status closed(FILE *file, const char *name)
{
    int failed = ferror(file);
    fclose(file);
    if (!failed)
        return WELL;
    fprintf(stderr, "%s: cannot be read\n", name);
    return FAILED;
}

/* Says the ground of a refusal, on standard error. */
static inline enum status say_refused(uint32_t refusal)
{
    fprintf(stderr, "refused %u: %s\n", (unsigned)refusal, shuntberry_refusal_text(refusal));
    return REFUSED;
}

/* Prints a refusal: the number, and its ground on standard error. */
static inline enum status print_refused(uint32_t refusal)
{
    printf("refused %u\n", (unsigned)refusal);
    return say_refused(refusal);
}

/* WELL if it says something of a table that it is safe; else EMPTY, and why on standard error. */
static inline enum status says_something(const uint64_t *store, size_t n)
{
    if (!shuntberry_is_vacuous(store, n))
        return WELL;
    fprintf(stderr, n == 0 ? "a draft, without states: nothing to release\n"
                           : "no state is initial or none is forbidden: safe whatever else is in the table\n");
    return EMPTY;
}

/* The site that a word is, in at most as many digits as the greatest; NULL is site 0. 1, or 0 if it is none. */
static inline int is_site(const char *word, size_t *site)
{
    size_t digits = word == NULL ? 0 : strspn(word, "0123456789");
    *site = word == NULL ? 0 : strtoul(word, NULL, 10);
    return word == NULL || (digits > 0 && digits <= sizeof "65520" - 1 && word[digits] == '\0');
}

/* Reads the table in a file for a site into a store; WELL if there is one now. */
static inline enum status read_table(const char *name, size_t site, uint64_t store[SHUNTBERRY_STORE_WORDS],
                                     struct shuntberry_table *table)
{
    static uint8_t input[SHUNTBERRY_FILE_BYTES + 1]; /* one more, so that a longer file is seen to be too long */
    size_t length;
    FILE *file = opened(name, input, sizeof input, &length);
    if (file == NULL || closed(file, name) != WELL)
        return FAILED;
    *table = shuntberry_read(input, length, site, store, SHUNTBERRY_STORE_WORDS);
    return table->refusal == SHUNTBERRY_ACCEPTED ? WELL : print_refused(table->refusal);
}

/* What to end with: the status, or FAILED where something could not be printed. */
static inline enum status printed(enum status status)
{
    if (fflush(stdout) == 0 && !ferror(stdout))
        return status;
    fprintf(stderr, "standard output: cannot be written\n");
    return FAILED;
}

#endif
