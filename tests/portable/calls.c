/*
 * Every call on the inputs that standard input names, for any build of the library: one line of answers for each line of input, so that two builds
 * can be compared by their output alone. calls.mjs does the same for WebAssembly.
 *
 *   store LENGTH PLACE:WORD ..      the store from here on: so many words, 0 but for these
 *   possible LENGTH PLACE:WORD ..   the buffer of possible steps, in the same way
 *   input HEX, log HEX              bytes, `-` for none
 *   windows WORD .., closed DAY ..  a house's windows and closed days
 *   CALL NUMBER ..                  a call on these: its numbers in the header's order, then the length of the buffer that it fills
 *
 * An answer has the fields in the header's order, then the sum of each buffer that may be written, over the room that was lent and what lies behind it.
 */
#include "shuntberry.h"
#include <inttypes.h>
#include <stdio.h>
#include <stdlib.h>
#include <string.h>

#define ROOM 5000
#define BEHIND 8 /* places behind what is lent, which must stay as they are */
#define LINE (1 << 20)

static uint64_t store[ROOM], possible[ROOM], windows[ROOM], sixty_fours[ROOM];
static uint32_t closed[ROOM];
static uint16_t places[ROOM];
static uint8_t input[1 << 17], logged[1 << 17], bytes[1 << 17];
static size_t store_len, possible_len, windows_len, closed_len, input_len, log_len;
static struct shuntberry_set reachable;

static void fail(const char *why)
{
    fprintf(stderr, "calls: %s\n", why);
    exit(3);
}

static uint64_t number(void)
{
    char *word = strtok(NULL, " ");
    if (word == NULL) fail("a number is missing");
    return strtoull(word, NULL, 10);
}

static size_t sparse(uint64_t *words)
{
    size_t length = number();
    if (length + BEHIND > ROOM) fail("a buffer is too long");
    memset(words, 0, ROOM * sizeof *words);
    for (char *word; (word = strtok(NULL, " ")) != NULL;) {
        char *colon = strchr(word, ':');
        size_t place = strtoull(word, NULL, 10);
        if (colon == NULL || place >= ROOM) fail("no place and word");
        words[place] = strtoull(colon + 1, NULL, 10);
    }
    return length;
}

static size_t hexadecimal(uint8_t *out)
{
    char *word = strtok(NULL, " "), pair[3] = {0};
    size_t length = word == NULL || *word == '-' ? 0 : strlen(word) / 2;
    if (length > sizeof input) fail("too many bytes");
    for (size_t i = 0; i < length; i++) {
        memcpy(pair, word + 2 * i, 2);
        out[i] = (uint8_t)strtoul(pair, NULL, 16);
    }
    return length;
}

static size_t listed(uint64_t *words)
{
    size_t length = 0;
    for (char *word; (word = strtok(NULL, " ")) != NULL; length++) {
        if (length == ROOM) fail("too many words");
        words[length] = strtoull(word, NULL, 10);
    }
    return length;
}

/* FNV-1a over numbers of 64 bits: what a buffer holds, in one number that is the same on every machine. */
static uint64_t sum = 0;
static void begin(void) { sum = UINT64_C(14695981039346656037); }
static void add(uint64_t x)
{
    for (int k = 0; k < 8; k++) {
        sum = (sum ^ (x >> (8 * k) & 255)) * UINT64_C(1099511628211);
    }
}
static void said(const uint64_t *words, size_t count)
{
    begin();
    for (size_t i = 0; i < count; i++) add(words[i]);
    printf(" %016" PRIx64, sum);
}
static void said_places(size_t lent)
{
    begin();
    for (size_t i = 0; i < lent + BEHIND; i++) add(places[i]);
    printf(" %016" PRIx64, sum);
}
static void said_bytes(size_t lent)
{
    begin();
    for (size_t i = 0; i < lent + BEHIND; i++) add(bytes[i]);
    printf(" %016" PRIx64, sum);
}
static void said_sixty_fours(size_t lent) { said(sixty_fours, lent + BEHIND); }

/* Buffers hold this before a call, so that what it leaves alone shows. */
static void fresh(void)
{
    memset(places, 0xa5, sizeof places);
    memset(bytes, 0xa5, sizeof bytes);
    memset(sixty_fours, 0xa5, sizeof sixty_fours);
}

static void session(struct shuntberry_session s)
{
    printf(" %u %u", s.refusal, s.reserved);
    said(s.reachable.words, SHUNTBERRY_SET_WORDS);
    said(store, store_len + BEHIND);
    reachable = s.reachable;
}

static int is_call(const char *call)
{
    size_t n, g, k, lent;
    fresh();
    if (strcmp(call, "decide") == 0) {
        n = number(), g = number(), k = number(), lent = number();
        struct shuntberry_decision d = shuntberry_decide(store, store_len, n, g, k, places, lent);
        printf(" %u %u %u %u %u %u", d.refusal, d.verdict, d.count, d.size, d.steps, d.reserved);
        said(d.invariant, SHUNTBERRY_SET_WORDS), said_places(lent);
    } else if (strcmp(call, "check") == 0) {
        k = number(), lent = number();
        struct shuntberry_checked c = shuntberry_check(input, input_len, k, bytes, lent);
        printf(" %zu %zu %u %u %u %u", c.length, c.n, c.refusal, c.file_refusal, c.verdict, c.reserved);
        said_bytes(lent);
    } else if (strcmp(call, "shortest_path") == 0) {
        n = number(), g = number(), lent = number();
        struct shuntberry_shortest s = shuntberry_shortest_path(store, store_len, n, g, places, lent);
        printf(" %u %u %u", s.refusal, s.found, s.steps);
        said_places(lent);
    } else if (strcmp(call, "distances") == 0) {
        n = number(), g = number(), lent = number();
        printf(" %u", shuntberry_distances(store, store_len, n, g, places, lent));
        said_places(lent);
    } else if (strcmp(call, "within") == 0) {
        n = number(), g = number(), k = number();
        struct shuntberry_within w = shuntberry_within(store, store_len, n, g, k);
        printf(" %u %u", w.refusal, w.within);
    } else if (strcmp(call, "read") == 0) {
        k = number(), lent = number();
        struct shuntberry_table t = shuntberry_read(input, input_len, k, sixty_fours, lent);
        printf(" %u %u %u", t.refusal, t.n, t.g);
        said_sixty_fours(lent);
    } else if (strcmp(call, "write") == 0) {
        n = number(), g = number(), k = number(), lent = number();
        struct shuntberry_file f = shuntberry_write(store, store_len, n, g, k, bytes, lent);
        printf(" %u %u", f.refusal, f.length);
        said_bytes(lent);
    } else if (strcmp(call, "rewrite") == 0) {
        lent = number();
        struct shuntberry_file f = shuntberry_rewrite(input, input_len, bytes, lent);
        printf(" %u %u", f.refusal, f.length);
        said_bytes(lent);
    } else if (strcmp(call, "generate") == 0) {
        uint32_t seed = (uint32_t)number();
        n = number(), k = number(), lent = number();
        printf(" %u", shuntberry_generate(seed, n, k, sixty_fours, lent));
        said_sixty_fours(lent);
    } else if (strcmp(call, "replay") == 0) {
        n = number(), g = number();
        struct shuntberry_replay r = shuntberry_replay(store, store_len, n, g, logged, log_len);
        printf(" %u %u %u %u %u", r.refusal, r.followed, r.seen, r.percent, r.remainder);
    } else if (strcmp(call, "open") == 0) {
        n = number(), g = number();
        session(shuntberry_open(store, store_len, n, g));
    } else if (strcmp(call, "add_step") == 0) {
        n = number(), g = number(), k = number(), lent = number();
        session(shuntberry_add_step(store, store_len, n, g, reachable, k, lent));
    } else if (strcmp(call, "remove_step") == 0) {
        n = number(), g = number(), k = number(), lent = number();
        session(shuntberry_remove_step(store, store_len, n, g, reachable, k, lent));
    } else if (strcmp(call, "decide_modal") == 0) {
        n = number(), g = number(), lent = number();
        struct shuntberry_modal m = shuntberry_decide_modal(store, store_len, n, g, possible, possible_len, places, lent);
        printf(" %u %u %u %u", m.refusal, m.verdict, m.size, m.steps);
        said(m.invariant, SHUNTBERRY_SET_WORDS), said_places(lent);
    } else if (strcmp(call, "next_open") == 0) {
        k = number();
        struct shuntberry_minute m = shuntberry_next_open(k, windows, windows_len, closed, closed_len);
        printf(" %u %u %u", m.refusal, m.never, m.minute);
    } else if (strcmp(call, "version") == 0) {
        printf(" %u", shuntberry_version());
    } else {
        return 0;
    }
    return 1;
}

int main(void)
{
    static char line[LINE];
    unsigned long lines = 0;
    while (fgets(line, sizeof line, stdin) != NULL) {
        line[strcspn(line, "\r\n")] = 0;
        char *word = strtok(line, " ");
        if (word == NULL) continue;
        if (strcmp(word, "store") == 0) store_len = sparse(store);
        else if (strcmp(word, "possible") == 0) possible_len = sparse(possible);
        else if (strcmp(word, "input") == 0) input_len = hexadecimal(input);
        else if (strcmp(word, "log") == 0) log_len = hexadecimal(logged);
        else if (strcmp(word, "windows") == 0) windows_len = listed(windows);
        else if (strcmp(word, "closed") == 0) {
            closed_len = listed(sixty_fours);
            for (size_t i = 0; i < closed_len; i++) closed[i] = (uint32_t)sixty_fours[i];
        } else {
            lines++;
            printf("%s", word);
            if (!is_call(word)) fail("no such call");
            putchar('\n');
        }
    }
    printf("calls %lu\n", lines);
    return ferror(stdin) || fflush(stdout) ? 3 : 0;
}
