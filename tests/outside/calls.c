/*
 * The calls from C by the header alone: a corridor of as many states as there can be is laid out with the header's
 * offsets, written, read back, and asked for its path, which is every state in turn; the largest load
 * is generated; then the corridor's end as a hang and at rest, some of the refusals, logs of the corridor, an edit
 * session that cuts it in two and mends it, decide modal on the corridor with a step that is only possible, next
 * open minute, and every ground of every call, with what a caller sees who does not look at the refusal. The calls
 * run on a painted stack, to see how much of it they take.
 *
 * Without groups all states of Z have one cover, Z itself, so that each round loses the one state that
 * steps out: Z is all but the last state in round 0 and state 0 alone in round STATES - 2, where S is empty. That
 * is the count.
 */
#include <pthread.h>
#include <stdio.h>
#include <stdlib.h>
#include <string.h>

#include "shuntberry.h"

enum { SET_BYTES = 8 * SHUNTBERRY_SET_WORDS };

_Static_assert(sizeof(struct shuntberry_decision) == SET_BYTES + 24, "decision");
_Static_assert(offsetof(struct shuntberry_decision, refusal) == SET_BYTES, "decision.refusal");
_Static_assert(offsetof(struct shuntberry_decision, reserved) == SET_BYTES + 20, "decision.reserved");
_Static_assert(sizeof(struct shuntberry_checked) == 32, "checked");
_Static_assert(offsetof(struct shuntberry_checked, n) == 8, "checked.n");
_Static_assert(offsetof(struct shuntberry_checked, file_refusal) == 20, "checked.file_refusal");
_Static_assert(offsetof(struct shuntberry_checked, reserved) == 28, "checked.reserved");
_Static_assert(sizeof(struct shuntberry_shortest) == 12, "shortest");
_Static_assert(sizeof(struct shuntberry_within) == 8, "within");
_Static_assert(offsetof(struct shuntberry_within, refusal) == 0, "within.refusal");
_Static_assert(offsetof(struct shuntberry_within, within) == 4, "within.within");
_Static_assert(sizeof(struct shuntberry_table) == 12, "table");
_Static_assert(sizeof(struct shuntberry_file) == 8, "file");
_Static_assert(sizeof(struct shuntberry_replay) == 20, "replay");
_Static_assert(offsetof(struct shuntberry_replay, remainder) == 16, "replay.remainder");
_Static_assert(sizeof(struct shuntberry_set) == 8 * SHUNTBERRY_SET_WORDS, "set");
_Static_assert(sizeof(struct shuntberry_session) == 8 * SHUNTBERRY_SET_WORDS + 8, "session");
_Static_assert(offsetof(struct shuntberry_session, refusal) == 8 * SHUNTBERRY_SET_WORDS, "session.refusal");
_Static_assert(offsetof(struct shuntberry_session, reserved) == 8 * SHUNTBERRY_SET_WORDS + 4, "session.reserved");
_Static_assert(sizeof(struct shuntberry_modal) == SET_BYTES + 16, "modal");
_Static_assert(offsetof(struct shuntberry_modal, refusal) == SET_BYTES, "modal.refusal");
_Static_assert(offsetof(struct shuntberry_modal, steps) == SET_BYTES + 12, "modal.steps");
_Static_assert(SHUNTBERRY_POSSIBLE_ROW(SHUNTBERRY_MAX_STATES) == SHUNTBERRY_POSSIBLE_WORDS, "possible rows");
_Static_assert(sizeof(struct shuntberry_minute) == 12, "minute");
_Static_assert(SHUNTBERRY_ROW(SHUNTBERRY_MAX_STATES) == SHUNTBERRY_STORE_WORDS, "rows");
_Static_assert(SHUNTBERRY_GROUP(SHUNTBERRY_MAX_GROUPS) == SHUNTBERRY_ROW(0), "groups");
_Static_assert(SHUNTBERRY_RESTING + SHUNTBERRY_SET_WORDS == SHUNTBERRY_GROUP(0), "the resting set stands before the groups");
_Static_assert(64 * SHUNTBERRY_SET_WORDS == SHUNTBERRY_MAX_STATES, "words of a set");
_Static_assert(SHUNTBERRY_NO_VERDICT > SHUNTBERRY_DEPENDS, "no verdict is one of the four");
_Static_assert(SHUNTBERRY_NO_ANSWER > 1, "no answer is neither yes nor no");
_Static_assert(SHUNTBERRY_NO_TABLE > SHUNTBERRY_MAX_STATES, "no table has that many states");
_Static_assert(SHUNTBERRY_NO_MINUTE > SHUNTBERRY_MAX_TIME + 655200u, "no minute is later than every open one");

enum { STATES = SHUNTBERRY_MAX_STATES, STACK = 1 << 20, PAINT = 0xa5, STACK_LIMIT = 128 * 1024 };

/* The file of a table with as many states and no group: two numbers of two bytes, then its sets, in blocks of four bytes more. */
enum {
    CONTENT = 4 + STATES / 8 * (SHUNTBERRY_HEAD_SETS + STATES),
    BLOCK_CONTENT = SHUNTBERRY_BLOCK_BYTES - 4,
    FILE_BYTES = (CONTENT + BLOCK_CONTENT - 1) / BLOCK_CONTENT * SHUNTBERRY_BLOCK_BYTES
};

static uint64_t store[SHUNTBERRY_STORE_WORDS], other[SHUNTBERRY_STORE_WORDS];
static uint64_t possible[SHUNTBERRY_POSSIBLE_WORDS];
static uint8_t file[SHUNTBERRY_FILE_BYTES];
static uint8_t text[SHUNTBERRY_CHECK_TEXT];
static uint16_t path[SHUNTBERRY_PATH_PLACES];
static uint16_t distances[SHUNTBERRY_MAX_STATES + 1]; /* one place past the states */

static void require(int holds, const char *what)
{
    if (!holds) {
        fprintf(stderr, "calls: %s\n", what);
        exit(1);
    }
}

static int is_painted(const void *buffer, size_t size)
{
    const uint8_t *bytes = buffer;
    for (size_t i = 0; i < size; i++)
        if (bytes[i] != PAINT)
            return 0;
    return 1;
}

static void add(size_t set, unsigned state)
{
    store[set + state / 64] |= (uint64_t)1 << (state % 64);
}

static int is_corridor(uint32_t steps)
{
    for (unsigned state = 0; state < STATES; state++)
        if (path[state] != state)
            return 0;
    return steps == STATES - 1;
}

/* State s of the corridor is STATES - 1 - s steps from its end; the place past the states stays. */
static int are_distances(void)
{
    for (unsigned state = 0; state < STATES; state++)
        if (distances[state] != STATES - 1 - state)
            return 0;
    return distances[STATES] == PAINT;
}

/* 1 or 0 for yes or no within k steps, or 2 if the call is refused. */
static uint32_t within(size_t k)
{
    struct shuntberry_within answer = shuntberry_within(store, SHUNTBERRY_STORE_WORDS, STATES, 0, k);
    return answer.refusal == SHUNTBERRY_ACCEPTED ? answer.within : 2;
}

static void answers(void)
{
    struct shuntberry_file written =
        shuntberry_write(store, SHUNTBERRY_STORE_WORDS, STATES, 0, 0, file, sizeof file);
    require(written.refusal == SHUNTBERRY_ACCEPTED && written.length == FILE_BYTES, "write");
    struct shuntberry_table table = shuntberry_read(file, written.length, 0, other, SHUNTBERRY_STORE_WORDS);
    require(table.refusal == SHUNTBERRY_ACCEPTED && table.n == STATES && table.g == 0, "read");
    require(memcmp(store, other, sizeof store) == 0, "read gives back what was written");

    struct shuntberry_shortest shortest =
        shuntberry_shortest_path(store, SHUNTBERRY_STORE_WORDS, STATES, 0, path, SHUNTBERRY_PATH_PLACES);
    require(shortest.refusal == SHUNTBERRY_ACCEPTED && shortest.found == 1 && is_corridor(shortest.steps), "shortest path");
    memset(path, 0, sizeof path);
    struct shuntberry_decision decision = shuntberry_decide(store, SHUNTBERRY_STORE_WORDS, STATES, 0,
                                                            SHUNTBERRY_MAX_ALLOWANCE, path, SHUNTBERRY_PATH_PLACES);
    require(decision.refusal == SHUNTBERRY_ACCEPTED && decision.verdict == SHUNTBERRY_UNSAFE &&
                decision.count == STATES - 2 && decision.size == 0 && decision.reserved == 0 && is_corridor(decision.steps),
            "decide");
    decision = shuntberry_decide(store, SHUNTBERRY_STORE_WORDS, STATES, 0, 3, path, SHUNTBERRY_PATH_PLACES);
    require(decision.refusal == SHUNTBERRY_ACCEPTED && decision.verdict == SHUNTBERRY_UNDECIDED && decision.count == 3 &&
                decision.size == 0 && decision.steps == 0 && !shuntberry_is_safe(decision, STATES),
            "decide within an allowance that is too small");

    distances[STATES] = PAINT;
    require(shuntberry_distances(store, SHUNTBERRY_STORE_WORDS, STATES, 0, distances, STATES + 1) == SHUNTBERRY_ACCEPTED &&
                are_distances(),
            "distances");
    require(within(STATES - 1) == 1 && within(STATES - 2) == 0 && within(0) == 0 && within(SHUNTBERRY_UNREACHABLE) == 1 &&
                within(SIZE_MAX) == 1,
            "within");
    memset(store + SHUNTBERRY_INITIAL, 0, SHUNTBERRY_SET_WORDS * sizeof *store);
    require(within(SHUNTBERRY_UNREACHABLE) == 0 && within(SIZE_MAX) == 0, "within, without an initial state");
    shortest = shuntberry_shortest_path(store, SHUNTBERRY_STORE_WORDS, STATES, 0, path, SHUNTBERRY_PATH_PLACES);
    require(shortest.refusal == SHUNTBERRY_ACCEPTED && shortest.found == 0 && shortest.steps == 0, "no path");
    add(SHUNTBERRY_INITIAL, 0);
}

static int has(size_t set, unsigned state)
{
    return other[set + state / 64] >> (state % 64) & 1;
}

static void load(void)
{
    /* the first numbers that seed 12345 gives to states */
    const uint32_t first = 683154905, second = 1697059147;

    require(shuntberry_generate(12345, STATES, SHUNTBERRY_MAX_FAN_OUT, other, SHUNTBERRY_STORE_WORDS) == SHUNTBERRY_ACCEPTED,
            "generate");
    require(has(SHUNTBERRY_INITIAL, 0) && has(SHUNTBERRY_MARKED, STATES - 1), "the ends of a load");
    for (size_t word = 0; word < SHUNTBERRY_SET_WORDS; word++)
        require(other[SHUNTBERRY_RESTING + word] == 0, "no state of a load rests");
    require(has(SHUNTBERRY_ROW(0), first % STATES) && has(SHUNTBERRY_ROW(0), second % STATES), "the successors of state 0");
    struct shuntberry_file written =
        shuntberry_write(other, SHUNTBERRY_STORE_WORDS, STATES, 0, SHUNTBERRY_MAX_SITE, file, sizeof file);
    require(written.refusal == SHUNTBERRY_ACCEPTED, "write of a load");
}

/* The corridor's last state leads nowhere: forbidden without its mark too, unless it rests, and with it also at rest. */
// tries: States.forbidden
static void hangs(void)
{
    const size_t words = SHUNTBERRY_STORE_WORDS;
    uint64_t *marked = store + SHUNTBERRY_MARKED, *resting = store + SHUNTBERRY_RESTING;
    const size_t set = SHUNTBERRY_SET_WORDS * sizeof *store;

    for (unsigned kind = 0; kind < 4; kind++) {
        int is_marked = kind % 2 == 1, rests = kind / 2 == 1;
        memset(marked, 0, set);
        memset(resting, 0, set);
        if (is_marked)
            add(SHUNTBERRY_MARKED, STATES - 1);
        if (rests)
            add(SHUNTBERRY_RESTING, STATES - 1);
        add(SHUNTBERRY_RESTING, 0); /* which leads on */
        uint32_t forbidden = is_marked || !rests;
        memset(path, 0, sizeof path);
        struct shuntberry_decision decision =
            shuntberry_decide(store, words, STATES, 0, SHUNTBERRY_MAX_ALLOWANCE, path, SHUNTBERRY_PATH_PLACES);
        require(decision.refusal == SHUNTBERRY_ACCEPTED &&
                    decision.verdict == (forbidden ? SHUNTBERRY_UNSAFE : SHUNTBERRY_SAFE) &&
                    decision.size == (forbidden ? 0 : STATES) && (!forbidden || is_corridor(decision.steps)) &&
                    shuntberry_is_safe(decision, STATES) == !forbidden,
                "decide on a state that leads nowhere");
        require(within(STATES - 1) == forbidden && within(STATES - 2) == 0, "within, of a state that leads nowhere");
        require(shuntberry_distances(store, words, STATES, 0, distances, STATES) == SHUNTBERRY_ACCEPTED &&
                    distances[STATES - 1] == (forbidden ? 0 : SHUNTBERRY_UNREACHABLE) &&
                    distances[0] == (forbidden ? STATES - 1 : SHUNTBERRY_UNREACHABLE),
                "distances to a state that leads nowhere");
        struct shuntberry_file written = shuntberry_write(store, words, STATES, 0, 0, file, sizeof file);
        struct shuntberry_table table = shuntberry_read(file, written.length, 0, other, words);
        require(written.refusal == SHUNTBERRY_ACCEPTED && table.refusal == SHUNTBERRY_ACCEPTED &&
                    memcmp(store, other, sizeof store) == 0,
                "the resting set is written and read back");
    }
    memset(resting, 0, set);
}

static struct shuntberry_checked check(size_t length, size_t site, size_t room)
{
    return shuntberry_check(file, length, site, text, room);
}

/* The answer of a check of `file`, which is refused: nothing in it can be taken for safe. */
static int is_refused_file(struct shuntberry_checked checked, uint32_t refusal)
{
    return checked.refusal == SHUNTBERRY_ACCEPTED && checked.file_refusal == refusal &&
           checked.verdict == SHUNTBERRY_NO_VERDICT && checked.n == SHUNTBERRY_NO_TABLE &&
           !shuntberry_checked_is_safe(checked);
}

/* Table E as versions 1 to 3 wrote it: one block, with the check 97. Rewritten it is safe, as it was; 01 has its answer. */
// tries: CheckAnswers.check_answer, Reported.past, Reported.safe_call, Calls.bad_second
// tries: RewriteAnswers.rewrite_answer, RewriteCalls.past, RewriteCalls.refusal
static void old_file(void)
{
    static const uint8_t front[] = {0, 0, 3, 0, 0, 0, 1, 4, 1, 4, 0};
    static const char answer[] = "states 3 groups 0\nsafe refinements 1\ninvariant 1: 0\n";
    uint8_t block[SHUNTBERRY_BLOCK_BYTES] = {0};

    memcpy(block, front, sizeof front);
    block[SHUNTBERRY_BLOCK_BYTES - 2] = 97;
    struct shuntberry_table table = shuntberry_read(block, sizeof block, 0, other, SHUNTBERRY_STORE_WORDS);
    require(table.refusal == SHUNTBERRY_GROUPS, "a file of the old form");

    memset(file, PAINT, sizeof file);
    struct shuntberry_file rewritten = shuntberry_rewrite(block, sizeof block, file, SHUNTBERRY_BLOCK_BYTES - 1);
    require(rewritten.refusal == SHUNTBERRY_OUTPUT_SHORT && rewritten.length == 0, "rewrite, a short output");
    require(is_painted(file, sizeof file), "rewrite, a refused call writes nothing");
    rewritten = shuntberry_rewrite(block, sizeof block, file, sizeof file);
    require(rewritten.refusal == SHUNTBERRY_ACCEPTED && rewritten.length == SHUNTBERRY_BLOCK_BYTES, "rewrite");
    require(is_painted(file + rewritten.length, sizeof file - rewritten.length), "rewrite, past the new file");
    require(shuntberry_rewrite(file, rewritten.length, block, sizeof block).refusal == SHUNTBERRY_GROUPS,
            "rewrite of a new file");

    memset(text, PAINT, sizeof text);
    struct shuntberry_checked checked = check(rewritten.length, 0, sizeof text);
    require(shuntberry_checked_is_safe(checked) && checked.n == 3, "check of E");
    require(checked.length == strlen(answer) && memcmp(text, answer, checked.length) == 0, "what check says of E");
    require(is_painted(text + checked.length, sizeof text - checked.length), "check, past its text");
    require(is_refused_file(check(rewritten.length, 1, sizeof text), SHUNTBERRY_BLOCK_CHECK), "check at another site");
    require(is_refused_file(check(rewritten.length - 1, 0, sizeof text), SHUNTBERRY_INPUT_LENGTH), "check of a cut file");
    file[4] ^= 1;
    require(is_refused_file(check(rewritten.length, 0, sizeof text), SHUNTBERRY_BLOCK_CHECK), "check of a damaged file");
    require(is_refused_file(shuntberry_check(block, sizeof block, 0, text, sizeof text), SHUNTBERRY_GROUPS),
            "check of a file of the old form");
}

/* The corridor's file is unsafe; a draft is safe but no table to release; a call that is refused writes nothing. */
// tries: CheckAnswers.check_grounds, Reported.unsafe_call, Reported.draft
static void checks(void)
{
    static const char front[] = "states 512 groups 0\nunsafe refinements ", draft[] = "states 0 groups 0\nsafe refinements 0\ninvariant 0: none\n";
    struct shuntberry_file written = shuntberry_write(store, SHUNTBERRY_STORE_WORDS, STATES, 0, 0, file, sizeof file);
    struct shuntberry_checked checked = check(written.length, 0, sizeof text);
    require(checked.refusal == SHUNTBERRY_ACCEPTED && checked.file_refusal == SHUNTBERRY_ACCEPTED &&
                checked.verdict == SHUNTBERRY_UNSAFE && checked.n == STATES && !shuntberry_checked_is_safe(checked),
            "check of the corridor");
    require(checked.length > strlen(front) && memcmp(text, front, strlen(front)) == 0, "what check says of the corridor");

    checked = shuntberry_check(NULL, 0, 0, text, sizeof text);
    require(checked.refusal == SHUNTBERRY_ACCEPTED && checked.verdict == SHUNTBERRY_SAFE && checked.n == 0, "check of a draft");
    require(!shuntberry_checked_is_safe(checked), "a draft is nothing to release");
    require(checked.length == strlen(draft) && memcmp(text, draft, checked.length) == 0, "what check says of a draft");

    memset(text, PAINT, sizeof text);
    const uint32_t refusals[] = {
        check(written.length, SHUNTBERRY_MAX_SITE + 1, sizeof text).refusal,
        check(written.length, 0, SHUNTBERRY_CHECK_TEXT - 1).refusal,
        shuntberry_check(NULL, 0, 0, NULL, 0).refusal,
        shuntberry_check(NULL, 0, SIZE_MAX, NULL, 0).refusal,
    };
    require(refusals[0] == SHUNTBERRY_SITE && refusals[1] == SHUNTBERRY_OUTPUT_SHORT &&
                refusals[2] == SHUNTBERRY_OUTPUT_SHORT && refusals[3] == SHUNTBERRY_SITE,
            "the refusals of check");
    checked = check(written.length, 0, 0);
    require(checked.verdict == SHUNTBERRY_NO_VERDICT && checked.n == SHUNTBERRY_NO_TABLE && checked.length == 0 &&
                !shuntberry_checked_is_safe(checked),
            "check, a refused call");
    require(is_painted(text, sizeof text), "check, a refused call writes nothing");
}

static uint32_t decide(size_t words, size_t n, size_t g, size_t allowance, size_t room)
{
    return shuntberry_decide(store, words, n, g, allowance, path, room).refusal;
}

static void refusals(void)
{
    const size_t words = SHUNTBERRY_STORE_WORDS, most = SHUNTBERRY_MAX_ALLOWANCE, room = SHUNTBERRY_PATH_PLACES;

    require(decide(words - 1, STATES, 0, most, room) == SHUNTBERRY_STORE_SHORT, "a short store");
    require(decide(words, STATES + 1, 0, most, room) == SHUNTBERRY_STATES, "too many states");
    require(decide(words, STATES, SHUNTBERRY_MAX_GROUPS + 1, most, room) == SHUNTBERRY_GROUPS, "too many groups");
    require(decide(words, STATES - 1, 0, most, room) == SHUNTBERRY_STRAY_BIT, "a state from n up");
    static uint64_t rests[SHUNTBERRY_STORE_WORDS];
    rests[SHUNTBERRY_RESTING] = 2;
    require(shuntberry_within(rests, words, 1, 0, 0).refusal == SHUNTBERRY_STRAY_BIT, "a resting state from n up");
    require(decide(words, STATES, 0, most + 1, room) == SHUNTBERRY_ALLOWANCE, "an allowance over the greatest");
    require(decide(words, STATES, 0, most, room - 1) == SHUNTBERRY_PATH_SHORT, "a short path buffer");
    require(shuntberry_distances(store, words, STATES, 0, distances, STATES - 1) == SHUNTBERRY_DISTANCES_SHORT,
            "a short distance buffer");
    require(shuntberry_within(store, words - 1, STATES, 0, 0).refusal == SHUNTBERRY_STORE_SHORT, "within, a short store");
    require(shuntberry_write(store, words, STATES, 0, 0, file, 511).refusal == SHUNTBERRY_OUTPUT_SHORT, "a short output");
    require(shuntberry_read(file, 511, 0, other, words).refusal == SHUNTBERRY_INPUT_LENGTH, "a length of 511");
    require(shuntberry_generate(0, 0, SHUNTBERRY_MAX_FAN_OUT + 1, other, words - 1) == SHUNTBERRY_STORE_SHORT, "a short store for a load");
    require(shuntberry_generate(0, 0, SHUNTBERRY_MAX_FAN_OUT + 1, other, words) == SHUNTBERRY_STATES, "a load of no states");
    require(shuntberry_generate(0, 1, SHUNTBERRY_MAX_FAN_OUT + 1, other, words) == SHUNTBERRY_FAN_OUT, "a fan-out over 16");
}

/* A file of one site at others; 24 behind 10 and before all else; null buffers beside a bad site. */
// tries: Version.version
static void sites(void)
{
    const size_t words = SHUNTBERRY_STORE_WORDS;
    const size_t some[] = {0, 1, SHUNTBERRY_MAX_SITE};
    const size_t far[] = {SHUNTBERRY_MAX_SITE + 1, (size_t)1 << 32, SIZE_MAX};

    require(shuntberry_version() == SHUNTBERRY_VERSION, "the version");
    for (size_t a = 0; a < 3; a++) {
        struct shuntberry_file written = shuntberry_write(store, words, STATES, 0, some[a], file, sizeof file);
        require(written.refusal == SHUNTBERRY_ACCEPTED, "write for a site");
        for (size_t b = 0; b < 3; b++)
            require(shuntberry_read(file, written.length, some[b], other, words).refusal ==
                        (a == b ? SHUNTBERRY_ACCEPTED : SHUNTBERRY_BLOCK_CHECK),
                    "read at a site");
        for (size_t b = 0; b < 3; b++) {
            require(shuntberry_read(file, 511, far[b], other, words).refusal == SHUNTBERRY_SITE, "a site over the greatest, and 11");
            require(shuntberry_read(file, written.length, far[b], other, words - 1).refusal == SHUNTBERRY_STORE_SHORT,
                    "a short store and a bad site");
            require(shuntberry_write(store, words, 0, 1, far[b], file, 0).refusal == SHUNTBERRY_SITE, "a bad site and 14");
            require(shuntberry_read(NULL, 0, far[b], other, words).refusal == SHUNTBERRY_SITE, "a draft at a bad site");
            require(shuntberry_read(NULL, 0, far[b], NULL, 0).refusal == SHUNTBERRY_STORE_SHORT, "nothing at a bad site");
            require(shuntberry_write(NULL, 0, 0, 0, far[b], NULL, 0).refusal == SHUNTBERRY_STORE_SHORT, "write of nothing at a bad site");
        }
    }
}

/* The corridor walked to its end, broken after two entries and from the start, and the two refusals. */
static void replays(void)
{
    static uint8_t log[SHUNTBERRY_MAX_LOG + 2];
    const size_t words = SHUNTBERRY_STORE_WORDS;

    for (unsigned state = 0; state < STATES; state++) {
        log[2 * state] = state % 256;
        log[2 * state + 1] = (uint8_t)(state / 256);
    }
    struct shuntberry_replay walk = shuntberry_replay(store, words, STATES, 0, log, 2 * STATES);
    require(walk.refusal == SHUNTBERRY_ACCEPTED && walk.followed == STATES && walk.seen == STATES &&
                walk.percent == 100 && walk.remainder == 0,
            "a whole walk");
    walk = shuntberry_replay(store, words, STATES, 0, log, SHUNTBERRY_MAX_LOG);
    require(walk.refusal == SHUNTBERRY_ACCEPTED && walk.followed == STATES && walk.seen == STATES, "the longest log");
    log[4] = 1;
    walk = shuntberry_replay(store, words, STATES, 0, log, 2 * STATES);
    require(walk.refusal == SHUNTBERRY_ACCEPTED && walk.followed == 2 && walk.seen == 2 &&
                walk.percent == 200 / STATES && walk.remainder == 200 % STATES,
            "a broken walk");
    walk = shuntberry_replay(store, words, STATES, 0, log + 2, 2);
    require(walk.refusal == SHUNTBERRY_ACCEPTED && walk.followed == 0 && walk.seen == 0 && walk.percent == 0, "no walk");
    require(shuntberry_replay(store, words, STATES, 0, log, 0).followed == 0, "an empty log");
    require(shuntberry_replay(store, words, STATES, 0, log, SHUNTBERRY_MAX_LOG + 1).refusal == SHUNTBERRY_LOG_ODD,
            "an odd length");
    require(shuntberry_replay(store, words, STATES, 0, log, SHUNTBERRY_MAX_LOG + 2).refusal == SHUNTBERRY_LOG_LONG,
            "a log that is too long");
}

static int is_lit(struct shuntberry_session session, unsigned state)
{
    return (int)(session.reachable.words[state / 64] >> (state % 64) & 1);
}

static int same_set(struct shuntberry_set set, struct shuntberry_set other_set)
{
    return memcmp(set.words, other_set.words, sizeof set.words) == 0;
}

/* Whether the states below a number are lit, and no other. */
static int lit_below(struct shuntberry_session session, unsigned states)
{
    for (unsigned state = 0; state < SHUNTBERRY_MAX_STATES; state++)
        if (is_lit(session, state) != (state < states))
            return 0;
    return session.refusal == SHUNTBERRY_ACCEPTED && session.reserved == 0;
}

/* The corridor cut in two and mended, a step to itself, and 27, which gives back the set that it was handed. */
static void sessions(void)
{
    const size_t words = SHUNTBERRY_STORE_WORDS;
    const unsigned half = STATES / 2;

    memcpy(other, store, sizeof store);
    struct shuntberry_session now = shuntberry_open(other, words, STATES, 0);
    require(lit_below(now, STATES), "open");
    const struct shuntberry_set whole = now.reachable, none = {{0}};
    struct shuntberry_set handed = now.reachable;
    now = shuntberry_remove_step(other, words, STATES, 0, handed, half - 1, half);
    require(lit_below(now, half), "a step removed");
    require(same_set(handed, whole), "a set goes in by value");
    struct shuntberry_shortest cut = shuntberry_shortest_path(other, words, STATES, 0, path, SHUNTBERRY_PATH_PLACES);
    require(cut.found == 1 && cut.steps == half - 1, "a state without its last step hangs");
    now = shuntberry_add_step(other, words, STATES, 0, now.reachable, half, half);
    require(lit_below(now, half), "a step to itself from an unlit state");
    now = shuntberry_add_step(other, words, STATES, 0, now.reachable, half - 1, half);
    require(lit_below(now, STATES), "a step added");
    now = shuntberry_remove_step(other, words, STATES, 0, now.reachable, half, half);
    require(lit_below(now, STATES) && memcmp(other, store, sizeof store) == 0, "the store mended");
    for (int k = 0; k < 4; k++) {
        const size_t from = k % 2 ? STATES : 0, to = k % 2 ? 0 : STATES;
        now = k < 2 ? shuntberry_add_step(other, words, STATES, 0, whole, from, to)
                    : shuntberry_remove_step(other, words, STATES, 0, whole, from, to);
        require(now.refusal == SHUNTBERRY_STEP_STATE && same_set(now.reachable, whole), "27");
    }
    require(memcmp(other, store, sizeof store) == 0, "a refused edit leaves the store");
    now = shuntberry_open(other, words - 1, STATES, 0);
    require(now.refusal == SHUNTBERRY_STORE_SHORT && same_set(now.reachable, none), "a refused opening gives the empty set");
}

static struct shuntberry_modal decide_modal(void)
{
    memset(path, PAINT, sizeof path);
    return shuntberry_decide_modal(store, SHUNTBERRY_STORE_WORDS, STATES, 0, possible, SHUNTBERRY_POSSIBLE_WORDS, path,
                                   SHUNTBERRY_PATH_PLACES);
}

/* Whether the invariant is every state but the last. */
static int all_but_last(struct shuntberry_modal answer)
{
    for (unsigned word = 0; word + 1 < SHUNTBERRY_SET_WORDS; word++)
        if (answer.invariant[word] != UINT64_MAX)
            return 0;
    return answer.invariant[SHUNTBERRY_SET_WORDS - 1] == UINT64_MAX >> 1 && answer.size == STATES - 1;
}

/*
 * The corridor's last step certain, possible only, and neither. Without it the last state but one has no certain step:
 * for decide it is a hang, and here it is one only where the step is not possible either. Z0 is then all states but the
 * last, and so is R: safe in round 0.
 */
static void options(void)
{
    const size_t last = SHUNTBERRY_ROW(STATES - 2), words = SHUNTBERRY_STORE_WORDS, more = SHUNTBERRY_POSSIBLE_WORDS,
                 room = SHUNTBERRY_PATH_PLACES;
    uint64_t step[SHUNTBERRY_SET_WORDS];

    memcpy(possible, store + SHUNTBERRY_ROW(0), sizeof possible);
    memcpy(step, store + last, sizeof step);
    struct shuntberry_modal answer = decide_modal();
    require(answer.refusal == SHUNTBERRY_ACCEPTED && answer.verdict == SHUNTBERRY_UNSAFE && answer.size == 0 &&
                is_corridor(answer.steps),
            "every choice unsafe");
    require(shuntberry_decide_modal(store, words, STATES, 0, possible, more, path, room - 1).refusal == SHUNTBERRY_PATH_SHORT,
            "decide modal, a short path buffer");

    memset(possible + SHUNTBERRY_POSSIBLE_ROW(STATES - 2), 0, sizeof step);
    require(shuntberry_decide_modal(store, words, STATES, 0, possible, more, path, 0).refusal == SHUNTBERRY_NOT_POSSIBLE,
            "a certain step that is not possible");
    require(shuntberry_decide_modal(store, words, STATES, 0, possible, more - 1, path, 0).refusal == SHUNTBERRY_STORE_SHORT,
            "possible steps of too few words");

    memset(store + last, 0, sizeof step);
    answer = decide_modal();
    require(answer.refusal == SHUNTBERRY_ACCEPTED && answer.verdict == SHUNTBERRY_UNSAFE && answer.steps == STATES - 2 &&
                path[STATES - 2] == STATES - 2,
            "a hang in every choice");
    add(SHUNTBERRY_RESTING, STATES - 2);
    answer = decide_modal();
    require(answer.refusal == SHUNTBERRY_ACCEPTED && answer.verdict == SHUNTBERRY_SAFE && all_but_last(answer) &&
                answer.steps == 0 && is_painted(path, sizeof path) && shuntberry_modal_is_safe(answer, STATES),
            "every choice safe");
    memset(store + SHUNTBERRY_RESTING, 0, sizeof step);

    memcpy(possible + SHUNTBERRY_POSSIBLE_ROW(STATES - 2), step, sizeof step);
    answer = decide_modal();
    require(answer.refusal == SHUNTBERRY_ACCEPTED && answer.verdict == SHUNTBERRY_DEPENDS && all_but_last(answer) &&
                is_corridor(answer.steps),
            "a step that is only possible");
    struct shuntberry_decision decision = shuntberry_decide(store, words, STATES, 0, SHUNTBERRY_MAX_ALLOWANCE, path, room);
    require(decision.verdict == SHUNTBERRY_UNSAFE && decision.steps == STATES - 2, "a hang for decide, and not here");
    memcpy(store + last, step, sizeof step);
}

static int is_minute(struct shuntberry_minute answer, uint32_t minute)
{
    return answer.refusal == SHUNTBERRY_ACCEPTED && answer.never == 0 && answer.minute == minute;
}

static int is_never(struct shuntberry_minute answer)
{
    return answer.refusal == SHUNTBERRY_ACCEPTED && answer.never == 1 && answer.minute == SHUNTBERRY_NO_MINUTE;
}

/* An empty buffer as C and C++ have it: null and 0, for each buffer of each call; and an untouched draft. */
static void nothing(void)
{
    const size_t words = SHUNTBERRY_STORE_WORDS, most = SHUNTBERRY_MAX_ALLOWANCE, room = SHUNTBERRY_PATH_PLACES;
    static uint64_t draft[SHUNTBERRY_STORE_WORDS];

    require(shuntberry_decide(NULL, 0, STATES, 0, most, path, room).refusal == SHUNTBERRY_STORE_SHORT, "decide, no store");
    require(shuntberry_decide(store, words, STATES, 0, most, NULL, 0).refusal == SHUNTBERRY_PATH_SHORT, "decide, no path");
    require(shuntberry_decide(NULL, 0, 0, 0, 0, NULL, 0).refusal == SHUNTBERRY_STORE_SHORT, "decide, nothing");
    require(shuntberry_shortest_path(NULL, 0, STATES, 0, path, room).refusal == SHUNTBERRY_STORE_SHORT, "path, no store");
    require(shuntberry_shortest_path(store, words, STATES, 0, NULL, 0).refusal == SHUNTBERRY_PATH_SHORT, "path, no path");
    require(shuntberry_distances(NULL, 0, STATES, 0, distances, STATES) == SHUNTBERRY_STORE_SHORT, "distances, no store");
    require(shuntberry_distances(store, words, STATES, 0, NULL, 0) == SHUNTBERRY_DISTANCES_SHORT, "distances, no places");
    require(shuntberry_distances(NULL, 0, 0, 0, NULL, 0) == SHUNTBERRY_STORE_SHORT, "distances, nothing");
    require(shuntberry_within(NULL, 0, STATES, 0, SIZE_MAX).refusal == SHUNTBERRY_STORE_SHORT, "within, no store");
    require(shuntberry_generate(0, STATES, 0, NULL, 0) == SHUNTBERRY_STORE_SHORT, "generate, no store");
    require(shuntberry_read(file, sizeof file, 0, NULL, 0).refusal == SHUNTBERRY_STORE_SHORT, "read, no store");
    require(shuntberry_read(NULL, 0, 0, NULL, 0).refusal == SHUNTBERRY_STORE_SHORT, "read, nothing");
    require(shuntberry_write(NULL, 0, STATES, 0, 0, file, sizeof file).refusal == SHUNTBERRY_STORE_SHORT, "write, no store");
    require(shuntberry_write(store, words, STATES, 0, 0, NULL, 0).refusal == SHUNTBERRY_OUTPUT_SHORT, "write, no output");
    require(shuntberry_open(NULL, 0, STATES, 0).refusal == SHUNTBERRY_STORE_SHORT, "open, nothing");
    const struct shuntberry_set one = { { 1 } };
    require(shuntberry_add_step(NULL, 0, STATES, 0, one, 0, 0).refusal == SHUNTBERRY_STORE_SHORT, "add a step, nothing");
    require(shuntberry_remove_step(NULL, 0, STATES, 0, one, 0, 0).reachable.words[0] == 1, "remove a step, nothing");
    require(shuntberry_replay(NULL, 0, STATES, 0, NULL, 0).refusal == SHUNTBERRY_STORE_SHORT, "replay, nothing");
    struct shuntberry_replay walk = shuntberry_replay(store, words, STATES, 0, NULL, 0);
    require(walk.refusal == SHUNTBERRY_ACCEPTED && walk.followed == 0 && walk.seen == 0, "replay, no log");

    require(shuntberry_decide_modal(NULL, 0, STATES, 0, possible, SHUNTBERRY_POSSIBLE_WORDS, path, room).refusal ==
                SHUNTBERRY_STORE_SHORT,
            "decide modal, no store");
    require(shuntberry_decide_modal(store, words, STATES, 0, NULL, 0, path, room).refusal == SHUNTBERRY_STORE_SHORT,
            "decide modal, no possible steps");
    require(shuntberry_decide_modal(store, words, STATES, 0, possible, SHUNTBERRY_POSSIBLE_WORDS, NULL, 0).refusal ==
                SHUNTBERRY_PATH_SHORT,
            "decide modal, no path");
    require(shuntberry_decide_modal(NULL, 0, 0, 0, NULL, 0, NULL, 0).refusal == SHUNTBERRY_STORE_SHORT,
            "decide modal, nothing");

    memset(other, PAINT, sizeof other);
    struct shuntberry_table table = shuntberry_read(NULL, 0, SHUNTBERRY_MAX_SITE, other, words);
    require(table.refusal == SHUNTBERRY_ACCEPTED && table.n == 0 && table.g == 0, "read of no bytes");
    require(memcmp(other, draft, sizeof draft) == 0, "read of no bytes makes each word 0");
    struct shuntberry_file written = shuntberry_write(draft, words, 0, 0, SHUNTBERRY_MAX_SITE, NULL, 0);
    require(written.refusal == SHUNTBERRY_ACCEPTED && written.length == 0, "write of a draft");
    struct shuntberry_decision decision = shuntberry_decide(draft, words, 0, 0, 0, path, room);
    require(decision.refusal == SHUNTBERRY_ACCEPTED && decision.verdict == SHUNTBERRY_SAFE && decision.count == 0 &&
                decision.size == 0 && decision.steps == 0 && !shuntberry_is_safe(decision, 0),
            "decide on a draft");
    require(shuntberry_decide(draft, words, 0, 1, 0, path, room).refusal == SHUNTBERRY_STATES, "groups without states");
    require(shuntberry_distances(draft, words, 0, 0, NULL, 0) == SHUNTBERRY_ACCEPTED, "distances of a draft");
    struct shuntberry_within near = shuntberry_within(draft, words, 0, 0, SIZE_MAX);
    require(near.refusal == SHUNTBERRY_ACCEPTED && near.within == 0, "within, on a draft");

    const uint64_t window = shuntberry_window(540, 120);
    const uint32_t closed = 0;
    require(is_never(shuntberry_next_open(0, NULL, 0, NULL, 0)), "next open, nothing");
    require(is_never(shuntberry_next_open(0, NULL, 0, &closed, 1)), "next open, no windows");
    require(is_minute(shuntberry_next_open(0, &window, 1, NULL, 0), 540), "next open, no closed days");
}

/* Saturdays from 09:00 to 11:00, and from Friday 22:40 to Saturday 02:00; then numbers that do not fit a window. */
static void release_windows(void)
{
    const uint64_t windows[] = {shuntberry_window(540, 120), shuntberry_window(10000, 200)};
    const uint32_t closed[SHUNTBERRY_MAX_DAYS + 1] = {0};

    require(is_minute(shuntberry_next_open(0, windows, 2, closed, 0), 0), "a window begun before minute 0");
    require(is_minute(shuntberry_next_open(120, windows, 2, closed, 0), 540), "the next window");
    require(is_minute(shuntberry_next_open(659, windows, 1, closed, 0), 659), "the last minute");
    require(is_minute(shuntberry_next_open(660, windows, 1, closed, 0), 10080 + 540), "the minute after the last");
    require(is_minute(shuntberry_next_open(0, windows, 2, closed, 1), 10000), "day 0 closed");
    require(is_minute(shuntberry_next_open(SHUNTBERRY_MAX_TIME, windows, 1, closed, 0), 2147484060), "past the greatest time");

    require(is_never(shuntberry_next_open(0, windows, 0, closed, 0)), "no window");

    const uint64_t out_of_range[] = {
        shuntberry_window(10080, 1),      shuntberry_window(0, 0),        shuntberry_window(0, 10081),
        shuntberry_window(4294967301, 1), shuntberry_window(5, 4294967297), shuntberry_window((uint64_t)-1, (uint64_t)-1),
    };
    for (size_t i = 0; i < sizeof out_of_range / sizeof out_of_range[0]; i++)
        require(shuntberry_next_open(0, &out_of_range[i], 1, closed, 0).refusal == SHUNTBERRY_WINDOW_RANGE,
                "a window out of range");
    require(shuntberry_window(10079, 10080) == ((uint64_t)10080 << 32 | 10079), "the largest window");

    uint64_t many[SHUNTBERRY_MAX_WINDOWS + 1];
    for (size_t i = 0; i < SHUNTBERRY_MAX_WINDOWS + 1; i++)
        many[i] = shuntberry_window(10080, 0);
    require(shuntberry_next_open(0, many, SHUNTBERRY_MAX_WINDOWS + 1, closed, 0).refusal == SHUNTBERRY_TOO_MANY, "33 windows");
    require(shuntberry_next_open(0, many, SHUNTBERRY_MAX_WINDOWS, closed, 0).refusal == SHUNTBERRY_WINDOW_RANGE, "32 windows");
    require(shuntberry_next_open(0, windows, 0, closed, SHUNTBERRY_MAX_DAYS + 1).refusal == SHUNTBERRY_TOO_MANY, "65 days");
    require(shuntberry_next_open((size_t)SHUNTBERRY_MAX_TIME + 1, many, SHUNTBERRY_MAX_WINDOWS + 1, closed, 65).refusal == SHUNTBERRY_TIME,
            "a time of 2^31");
}

/* ---- Every ground of every call, and what its caller sees who does not look at the refusal ---- */

/* The calls. Generate and write have nothing to say but their refusal; they are asked for n alone. */
enum call {
    DECIDE, SHORTEST_PATH, DISTANCES, WITHIN, READ, REPLAY, OPEN, ADD_STEP, REMOVE_STEP, DECIDE_MODAL, NEXT_OPEN, GENERATE, WRITE, CALLS
};
static const char *const names[CALLS] = {"decide", "shortest path", "distances", "within", "read", "replay", "open", "add a step",
                                         "remove a step", "decide modal", "next open", "generate", "write"};

/* Their arguments: lengths, numbers, and what stands in a buffer. */
enum argument {
    WORDS, N, G, ALLOWANCE, PLACES, DISTANCE_PLACES, SITE, INPUT, BYTE, LOG, FROM, TO, POSSIBLE, KNOWN, TIME, WINDOWS, START, LENGTH, DAYS, ARGUMENTS
};

/* Three states in a row, the last marked, and a group of the other two: each call accepts this, and decide says unsafe. */
static const size_t accepted[ARGUMENTS] = {
    [WORDS] = SHUNTBERRY_STORE_WORDS, [N] = 3, [G] = 1, [PLACES] = SHUNTBERRY_PATH_PLACES, [DISTANCE_PLACES] = 3,
    [INPUT] = SHUNTBERRY_BLOCK_BYTES, [LOG] = 2, [POSSIBLE] = SHUNTBERRY_POSSIBLE_WORDS, [KNOWN] = 1, [TIME] = 1000, [WINDOWS] = 1,
    [LENGTH] = 1, [DAYS] = 1,
};

static const uint64_t few[SHUNTBERRY_STORE_WORDS] = {
    [SHUNTBERRY_INITIAL] = 1 << 0, [SHUNTBERRY_MARKED] = 1 << 2, [SHUNTBERRY_GROUP(0)] = 1 << 0 | 1 << 1,
    [SHUNTBERRY_ROW(0)] = 1 << 1, [SHUNTBERRY_ROW(1)] = 1 << 2,
};

/* The byte of a file at a place changed to a value. Its block is given the check that goes with it, unless that is the change. */
#define CHANGED(place, value) (256 * (place) + (value))

/* The calls on a store with a table, by their bits. */
#define BIT(k) ((uint64_t)1 << (k)) /* of a call, or of a refusal, whose numbers go past 31 one day */
#define EDIT (BIT(ADD_STEP) | BIT(REMOVE_STEP))
#define WITH_PATH (BIT(DECIDE) | BIT(SHORTEST_PATH) | BIT(DECIDE_MODAL))
#define ON_TABLE (WITH_PATH | EDIT | BIT(DISTANCES) | BIT(WITHIN) | BIT(REPLAY) | BIT(OPEN))

/* One argument changed, so that some calls refuse. */
static const struct ground {
    uint32_t refusal;
    uint64_t calls;
    enum argument argument;
    size_t changed;
} grounds[] = {
    {10, ON_TABLE | BIT(READ), WORDS, SHUNTBERRY_STORE_WORDS - 1},
    {10, BIT(DECIDE_MODAL), POSSIBLE, SHUNTBERRY_POSSIBLE_WORDS - 1},
    {11, BIT(READ), INPUT, SHUNTBERRY_BLOCK_BYTES - 1},
    {11, BIT(READ), INPUT, SHUNTBERRY_FILE_BYTES + SHUNTBERRY_BLOCK_BYTES},
    {12, BIT(READ), BYTE, CHANGED(0, 1)},   /* the block's number */
    {13, BIT(READ), BYTE, CHANGED(510, 1)}, /* its check */
    {14, BIT(READ), BYTE, CHANGED(2, 0)},   /* no states */
    {14, BIT(READ), BYTE, CHANGED(3, 2)},   /* 515 of them */
    {14, ON_TABLE, N, 0},
    {14, ON_TABLE, N, SHUNTBERRY_MAX_STATES + 1},
    {14, ON_TABLE, N, SHUNTBERRY_NO_TABLE},
    {15, BIT(READ), BYTE, CHANGED(5, 0)},   /* the old form */
    {15, ON_TABLE, G, SHUNTBERRY_MAX_GROUPS + 1},
    {16, BIT(READ), BYTE, CHANGED(2, 255)}, /* 255 states in one block */
    {17, BIT(READ), BYTE, CHANGED(6, 8)},   /* state 3 initial */
    {17, ON_TABLE, N, 2},
    {17, BIT(DECIDE_MODAL), KNOWN, 2},      /* a step to state 3 */
    {18, BIT(READ), BYTE, CHANGED(509, 1)}, /* filler */
    {20, BIT(DECIDE), ALLOWANCE, SHUNTBERRY_MAX_ALLOWANCE + 1},
    {21, WITH_PATH, PLACES, SHUNTBERRY_PATH_PLACES - 1},
    {23, BIT(DISTANCES), DISTANCE_PLACES, 2},
    {24, BIT(READ), SITE, SHUNTBERRY_MAX_SITE + 1},
    {25, BIT(REPLAY), LOG, 1},
    {25, BIT(REPLAY), LOG, SHUNTBERRY_MAX_LOG + 1},
    {26, BIT(REPLAY), LOG, SHUNTBERRY_MAX_LOG + 2},
    {27, EDIT, FROM, 3},
    {27, EDIT, TO, 3},
    {28, BIT(DECIDE_MODAL), KNOWN, 0}, /* no possible step */
    {29, BIT(NEXT_OPEN), START, 10080},
    {29, BIT(NEXT_OPEN), LENGTH, 0},
    {30, BIT(NEXT_OPEN), WINDOWS, SHUNTBERRY_MAX_WINDOWS + 1},
    {30, BIT(NEXT_OPEN), DAYS, SHUNTBERRY_MAX_DAYS + 1},
    {31, BIT(NEXT_OPEN), TIME, (size_t)SHUNTBERRY_MAX_TIME + 1},
};

/* The grounds of each call, as the header's comments name them. */
#define SHARED (BIT(10) | BIT(14) | BIT(15) | BIT(17))
static const uint64_t named[CALLS] = {
    [DECIDE] = SHARED | BIT(20) | BIT(21),
    [SHORTEST_PATH] = SHARED | BIT(21),
    [DISTANCES] = SHARED | BIT(23),
    [WITHIN] = SHARED,
    [READ] = SHARED | BIT(24) | BIT(11) | BIT(12) | BIT(13) | BIT(16) | BIT(18),
    [REPLAY] = SHARED | BIT(25) | BIT(26),
    [OPEN] = SHARED,
    [ADD_STEP] = SHARED | BIT(27),
    [REMOVE_STEP] = SHARED | BIT(27),
    [DECIDE_MODAL] = SHARED | BIT(28) | BIT(21),
    [NEXT_OPEN] = BIT(31) | BIT(30) | BIT(29),
};

static uint8_t input[SHUNTBERRY_FILE_BYTES + SHUNTBERRY_BLOCK_BYTES];

/* The table's file of site 0 in `input`, with a byte changed; 0 changes none. */
static void make_input(size_t change)
{
    const size_t place = change / 256, check = SHUNTBERRY_BLOCK_BYTES - 2;
    struct shuntberry_file written = shuntberry_write(few, SHUNTBERRY_STORE_WORDS, 3, 1, 0, input, sizeof input);
    require(written.refusal == SHUNTBERRY_ACCEPTED && written.length == SHUNTBERRY_BLOCK_BYTES, "the file of a small table");
    if (change == 0)
        return;
    input[place] = (uint8_t)(change % 256);
    if (place >= check)
        return;
    uint32_t sum = 0;
    for (size_t i = 0; i < check; i++)
        sum += (uint32_t)(i + 1) * input[i];
    input[check] = (uint8_t)(sum % 65521 % 256);
    input[check + 1] = (uint8_t)(sum % 65521 / 256);
}

/* What a call gave: its refusal, and whether the rest holds anything that could pass for an answer. */
struct outcome {
    uint32_t refusal;
    int answers;
};

/* Calls one of them on a table in a store, with these arguments. */
static struct outcome ask(enum call call, uint64_t *table, const size_t with[ARGUMENTS])
{
    static const uint64_t no_steps[SHUNTBERRY_POSSIBLE_WORDS], stray[SHUNTBERRY_POSSIBLE_WORDS] = {1 << 1 | 1 << 3};
    static const uint8_t log[SHUNTBERRY_MAX_LOG + 2];
    static const uint32_t closed[SHUNTBERRY_MAX_DAYS + 1];
    const struct shuntberry_set none = {{0}}, handed = {{1, 2, 3}};
    const size_t words = with[WORDS], n = with[N], g = with[G];

    switch (call) {
    case DECIDE: {
        struct shuntberry_decision gave = shuntberry_decide(table, words, n, g, with[ALLOWANCE], path, with[PLACES]);
        require(gave.refusal == SHUNTBERRY_ACCEPTED || !shuntberry_is_safe(gave, n), "a refused decision is safe");
        return (struct outcome){gave.refusal, gave.verdict != SHUNTBERRY_NO_VERDICT ||
                                                  (gave.count | gave.size | gave.steps | gave.reserved) != 0 ||
                                                  memcmp(gave.invariant, none.words, sizeof none) != 0};
    }
    case SHORTEST_PATH: {
        struct shuntberry_shortest gave = shuntberry_shortest_path(table, words, n, g, path, with[PLACES]);
        return (struct outcome){gave.refusal, gave.found != SHUNTBERRY_NO_ANSWER || gave.steps != 0};
    }
    case DISTANCES: {
        uint32_t refusal = shuntberry_distances(table, words, n, g, distances, with[DISTANCE_PLACES]);
        return (struct outcome){refusal, !is_painted(distances, sizeof distances)};
    }
    case WITHIN: {
        struct shuntberry_within gave = shuntberry_within(table, words, n, g, 1);
        return (struct outcome){gave.refusal, gave.within != SHUNTBERRY_NO_ANSWER};
    }
    case READ: {
        make_input(with[BYTE]);
        struct shuntberry_table gave = shuntberry_read(input, with[INPUT], with[SITE], table, words);
        return (struct outcome){gave.refusal, gave.n != SHUNTBERRY_NO_TABLE || gave.g != SHUNTBERRY_NO_TABLE};
    }
    case REPLAY: {
        struct shuntberry_replay gave = shuntberry_replay(table, words, n, g, log, with[LOG]);
        return (struct outcome){gave.refusal, (gave.followed | gave.seen | gave.percent | gave.remainder) != 0};
    }
    case OPEN: {
        struct shuntberry_session gave = shuntberry_open(table, words, n, g);
        return (struct outcome){gave.refusal, !same_set(gave.reachable, none) || gave.reserved != 0};
    }
    case ADD_STEP:
    case REMOVE_STEP: {
        struct shuntberry_session gave =
            call == ADD_STEP ? shuntberry_add_step(table, words, n, g, handed, with[FROM], with[TO])
                             : shuntberry_remove_step(table, words, n, g, handed, with[FROM], with[TO]);
        return (struct outcome){gave.refusal, !same_set(gave.reachable, handed) || gave.reserved != 0};
    }
    case DECIDE_MODAL: {
        const uint64_t *const rows[] = {no_steps, table + SHUNTBERRY_ROW(0), stray};
        struct shuntberry_modal gave =
            shuntberry_decide_modal(table, words, n, g, rows[with[KNOWN]], with[POSSIBLE], path, with[PLACES]);
        require(gave.refusal == SHUNTBERRY_ACCEPTED || !shuntberry_modal_is_safe(gave, n), "a refused modal decision is safe");
        return (struct outcome){gave.refusal, gave.verdict != SHUNTBERRY_NO_VERDICT || (gave.size | gave.steps) != 0 ||
                                                  memcmp(gave.invariant, none.words, sizeof none) != 0};
    }
    case NEXT_OPEN: {
        uint64_t windows[SHUNTBERRY_MAX_WINDOWS + 1];
        for (size_t i = 0; i <= SHUNTBERRY_MAX_WINDOWS; i++)
            windows[i] = shuntberry_window(with[START], with[LENGTH]);
        struct shuntberry_minute gave = shuntberry_next_open(with[TIME], windows, with[WINDOWS], closed, with[DAYS]);
        return (struct outcome){gave.refusal, gave.never != SHUNTBERRY_NO_ANSWER || gave.minute != SHUNTBERRY_NO_MINUTE};
    }
    case GENERATE:
        return (struct outcome){shuntberry_generate(0, n, 2, table, words), 0};
    case WRITE: {
        struct shuntberry_file gave = shuntberry_write(table, words, n, g, 0, file, sizeof file);
        return (struct outcome){gave.refusal, gave.length != 0};
    }
    case CALLS:
        break;
    }
    require(0, "no such call");
    return (struct outcome){0, 1};
}

/* That a call refuses with a number, gives nothing else that could pass for an answer, and leaves its buffers. */
static void require_refused(enum call call, const uint64_t *table, const size_t with[ARGUMENTS], uint32_t refusal)
{
    char what[80];
    memcpy(other, table, sizeof other);
    memset(path, PAINT, sizeof path);
    memset(distances, PAINT, sizeof distances);
    struct outcome outcome = ask(call, other, with);
    snprintf(what, sizeof what, "%s gives %u, where %u is due", names[call], (unsigned)outcome.refusal, (unsigned)refusal);
    require(outcome.refusal == refusal, what);
    snprintf(what, sizeof what, "%s refuses with %u, and gives an answer beside it", names[call], (unsigned)refusal);
    require(!outcome.answers, what);
    snprintf(what, sizeof what, "%s refuses with %u, and changes a buffer", names[call], (unsigned)refusal);
    require(memcmp(other, table, sizeof other) == 0 && is_painted(path, sizeof path) && is_painted(distances, sizeof distances), what);
}

// tries: FailsSafe.FailsSafe, Figures.RefusedAre, Grounds.Refuses
static void refused_calls(void)
{
    uint64_t met[CALLS] = {0};

    for (enum call call = DECIDE; call <= NEXT_OPEN; call++) {
        memcpy(other, few, sizeof other);
        struct outcome outcome = ask(call, other, accepted);
        /* removing a step that is not there gives back the set, too */
        require(outcome.refusal == SHUNTBERRY_ACCEPTED && (outcome.answers || call == REMOVE_STEP), "an accepted call gives no answer");
        for (size_t row = 0; row < sizeof grounds / sizeof grounds[0]; row++) {
            if (!(grounds[row].calls & BIT(call)))
                continue;
            size_t with[ARGUMENTS];
            memcpy(with, accepted, sizeof with);
            with[grounds[row].argument] = grounds[row].changed;
            require_refused(call, few, with, grounds[row].refusal);
            met[call] |= BIT(grounds[row].refusal);
        }
    }
    require(memcmp(met, named, sizeof met) == 0, "every ground of every call");
}

/* A file that is refused, read into a store that was zeroed, and n and g handed on without a look at the refusal. */
// tries: FailsSafe.HandedOn
static void refused_files(void)
{
    static const uint64_t zeroed[SHUNTBERRY_STORE_WORDS];

    for (size_t row = 0; row < sizeof grounds / sizeof grounds[0]; row++) {
        if (!(grounds[row].calls & BIT(READ)))
            continue;
        size_t with[ARGUMENTS];
        memcpy(with, accepted, sizeof with);
        with[grounds[row].argument] = grounds[row].changed;
        make_input(with[BYTE]);
        memcpy(other, zeroed, sizeof other);
        struct shuntberry_table table = shuntberry_read(input, with[INPUT], with[SITE], other, with[WORDS]);
        require(memcmp(other, zeroed, sizeof other) == 0, "a refused read leaves a zeroed store");
        memcpy(with, accepted, sizeof with);
        with[N] = table.n;
        with[G] = table.g;
        for (enum call call = DECIDE; call < CALLS; call++)
            if (call != READ && call != NEXT_OPEN)
                require_refused(call, zeroed, with, SHUNTBERRY_STATES);
    }
}

/* Each ground has words of its own, and what is none has those of no other. */
static void refusal_texts(void)
{
    const char *none = shuntberry_refusal_text(SHUNTBERRY_ACCEPTED);
    for (uint32_t one = SHUNTBERRY_STORE_SHORT; one <= SHUNTBERRY_TIME; one++) {
        require(strcmp(shuntberry_refusal_text(one), none) != 0, "a ground without words");
        for (uint32_t another = SHUNTBERRY_STORE_SHORT; another < one; another++)
            require(strcmp(shuntberry_refusal_text(one), shuntberry_refusal_text(another)) != 0, "two grounds in the same words");
    }
    const uint32_t grounds_not[] = {1, SHUNTBERRY_STORE_SHORT - 1, SHUNTBERRY_TIME + 1, SHUNTBERRY_NO_VERDICT, UINT32_MAX};
    for (size_t i = 0; i < sizeof grounds_not / sizeof grounds_not[0]; i++)
        require(strcmp(shuntberry_refusal_text(grounds_not[i]), none) == 0, "words for no ground");
}

/* Safe is only an accepted call's verdict of safe, whatever a library should give. */
static void only_safe_is_safe(void)
{
    const uint32_t numbers[] = {0, 1, 2, 3, 10, 31, 255, 65535, UINT32_MAX};
    const size_t count = sizeof numbers / sizeof numbers[0];
    for (size_t i = 0; i < count; i++)
        for (size_t k = 0; k < count; k++) {
            const struct shuntberry_decision decision = {.refusal = numbers[i], .verdict = numbers[k]};
            const struct shuntberry_modal modal = {.refusal = numbers[i], .verdict = numbers[k]};
            const int safe = numbers[i] == SHUNTBERRY_ACCEPTED && numbers[k] == SHUNTBERRY_SAFE;
            require(shuntberry_is_safe(decision, 1) == safe && shuntberry_modal_is_safe(modal, STATES) == safe, "is safe");
            require(!shuntberry_is_safe(decision, 0) && !shuntberry_modal_is_safe(modal, 0), "a draft is nothing to release");
            for (size_t j = 0; j < count; j++) {
                const struct shuntberry_checked checked = {
                    .n = 1, .refusal = numbers[i], .file_refusal = numbers[j], .verdict = numbers[k]};
                require(shuntberry_checked_is_safe(checked) == (safe && numbers[j] == SHUNTBERRY_ACCEPTED), "checked is safe");
            }
        }
    require(!shuntberry_checked_is_safe((struct shuntberry_checked){0}), "a record of zeros is not safe");
}

/* Each state by itself in and out of a set of ones or zeros: no other bit moves, and what is no state moves none. */
static void sets(void)
{
    const size_t beyond[] = {STATES, STATES + 1, 2 * STATES, SIZE_MAX - 63, SIZE_MAX};
    uint64_t set[SHUNTBERRY_SET_WORDS + 1], before[SHUNTBERRY_SET_WORDS + 1];

    for (int full = 0; full < 2; full++) {
        memset(before, full ? 0xff : 0, sizeof before);
        for (size_t state = 0; state < STATES; state++) {
            memcpy(set, before, sizeof set);
            require(shuntberry_put_state(set, state) == 1 && shuntberry_has_state(set, state) == 1, "a state that is put in");
            for (size_t word = 0; word <= SHUNTBERRY_SET_WORDS; word++)
                require((set[word] ^ before[word]) == (!full && word == state / 64 ? (uint64_t)1 << state % 64 : 0), "put");
            memcpy(set, before, sizeof set);
            shuntberry_remove_state(set, state);
            require(shuntberry_has_state(set, state) == 0, "a state that is taken out");
            for (size_t word = 0; word <= SHUNTBERRY_SET_WORDS; word++)
                require((set[word] ^ before[word]) == (full && word == state / 64 ? (uint64_t)1 << state % 64 : 0), "remove");
        }
        memcpy(set, before, sizeof set);
        for (size_t i = 0; i < sizeof beyond / sizeof beyond[0]; i++) {
            require(shuntberry_put_state(set, beyond[i]) == 0 && shuntberry_has_state(set, beyond[i]) == 0, "no state");
            shuntberry_remove_state(set, beyond[i]);
        }
        require(memcmp(set, before, sizeof set) == 0, "what is no state changes a set");
    }
}

/* Steps by their two ends, in a store and in the buffer of possible ones: just that bit of just that row. */
static void steps(void)
{
    static uint64_t drawn[SHUNTBERRY_STORE_WORDS], none[SHUNTBERRY_STORE_WORDS];
    const size_t ends[] = {0, 1, 63, 64, STATES - 1}, beyond[] = {STATES, STATES + 64, SIZE_MAX};

    for (size_t i = 0; i < sizeof ends / sizeof ends[0]; i++)
        for (size_t k = 0; k < sizeof ends / sizeof ends[0]; k++) {
            const size_t from = ends[i], to = ends[k];
            require(shuntberry_draw_step(drawn, from, to) == 1 && shuntberry_has_state(drawn + SHUNTBERRY_ROW(from), to), "draw");
            drawn[SHUNTBERRY_ROW(from) + to / 64] = 0;
            require(shuntberry_draw_possible_step(drawn, from, to) == 1 &&
                        shuntberry_has_state(drawn + SHUNTBERRY_POSSIBLE_ROW(from), to),
                    "draw a possible step");
            drawn[SHUNTBERRY_POSSIBLE_ROW(from) + to / 64] = 0;
            require(memcmp(drawn, none, sizeof drawn) == 0, "a step changes more than its word");
        }
    for (size_t i = 0; i < sizeof beyond / sizeof beyond[0]; i++)
        require(!shuntberry_draw_step(drawn, beyond[i], 0) && !shuntberry_draw_step(drawn, 0, beyond[i]) &&
                    !shuntberry_draw_possible_step(drawn, beyond[i], 0) && !shuntberry_draw_possible_step(drawn, 0, beyond[i]),
                "a step of no state");
    require(memcmp(drawn, none, sizeof drawn) == 0, "a step of no state changes a store");
}

/* A state is forbidden for a reason just where its distance is 0, and marked before it is a hang. */
static void reasons(void)
{
    static uint64_t load_store[SHUNTBERRY_STORE_WORDS];
    const size_t n = 100, words = SHUNTBERRY_STORE_WORDS;
    unsigned seen[3] = {0};

    for (uint32_t seed = 0; seed < 50; seed++) {
        require(shuntberry_generate(seed, n, 1, load_store, words) == SHUNTBERRY_ACCEPTED, "generate");
        for (size_t state = seed % 3; state < n; state += 3) { /* every third one leads nowhere, some of these rest, some are marked */
            memset(load_store + SHUNTBERRY_ROW(state), 0, SHUNTBERRY_SET_WORDS * sizeof *load_store);
            require(state % 2 || shuntberry_put_state(load_store + SHUNTBERRY_RESTING, state), "rest");
            require(state % 5 || shuntberry_put_state(load_store + SHUNTBERRY_MARKED, state), "mark");
        }
        require(shuntberry_distances(load_store, words, n, 0, distances, n) == SHUNTBERRY_ACCEPTED, "distances");
        for (size_t state = 0; state < n; state++) {
            const uint32_t why = shuntberry_why_forbidden(load_store, n, state);
            require(why <= SHUNTBERRY_FORBIDDEN_HANG && (why != SHUNTBERRY_FORBIDDEN_NOT) == (distances[state] == 0), "forbidden");
            require((why == SHUNTBERRY_FORBIDDEN_MARKED) == shuntberry_has_state(load_store + SHUNTBERRY_MARKED, state), "marked");
            seen[why]++;
        }
        const size_t beyond[] = {n, n + 1, STATES, SIZE_MAX};
        for (size_t i = 0; i < sizeof beyond / sizeof beyond[0]; i++)
            require(shuntberry_why_forbidden(load_store, n, beyond[i]) == SHUNTBERRY_NO_ANSWER, "no state is forbidden");
        require(shuntberry_why_forbidden(load_store, SHUNTBERRY_NO_TABLE, 0) == SHUNTBERRY_NO_ANSWER, "no table");
    }
    require(seen[0] > 0 && seen[1] > 0 && seen[2] > 0, "a reason was not tried");
}

/* A table is vacuous just where an initial state reaches none, itself included, or no state reaches a forbidden one. */
static void vacuous(void)
{
    static uint64_t filled[SHUNTBERRY_STORE_WORDS];
    const size_t sizes[] = {1, 2, 64, 65, STATES}, none[] = {0, STATES + 1, SHUNTBERRY_NO_TABLE, SIZE_MAX};
    enum { INITIAL = 1, MARKED = 2, HANG = 4, WAYS = 8 };
    unsigned seen[2] = {0};

    for (size_t i = 0; i < sizeof sizes / sizeof sizes[0]; i++)
        for (unsigned way = 0; way < WAYS; way++) {
            const size_t n = sizes[i], words = SHUNTBERRY_STORE_WORDS, last = n - 1;
            struct shuntberry_set nothing = {{0}};

            memset(filled, 0, sizeof filled);
            for (size_t state = 0; state < n; state++)
                require(way & HANG || shuntberry_put_state(filled + SHUNTBERRY_RESTING, state), "rest");
            require(!(way & INITIAL) || shuntberry_put_state(filled + SHUNTBERRY_INITIAL, last), "initial");
            require(!(way & MARKED) || shuntberry_put_state(filled + SHUNTBERRY_MARKED, last), "mark");
            struct shuntberry_session opened = shuntberry_open(filled, words, n, 0);
            require(opened.refusal == SHUNTBERRY_ACCEPTED, "open");
            require(shuntberry_distances(filled, words, n, 0, distances, n) == SHUNTBERRY_ACCEPTED, "distances");
            int says = 0;
            for (size_t state = 0; state < n; state++)
                says |= distances[state] != SHUNTBERRY_UNREACHABLE;
            says &= memcmp(&opened.reachable, &nothing, sizeof nothing) != 0;
            require(shuntberry_is_vacuous(filled, n) == !says, "vacuous");
            struct shuntberry_decision decision =
                shuntberry_decide(filled, words, n, 0, SHUNTBERRY_MAX_ALLOWANCE, path, SHUNTBERRY_PATH_PLACES);
            require(says || shuntberry_is_safe(decision, n), "vacuous and not safe");
            seen[says]++;
        }
    require(seen[0] > 0 && seen[1] > 0, "no table is vacuous, or all are");
    for (size_t i = 0; i < sizeof none / sizeof none[0]; i++)
        require(shuntberry_is_vacuous(NULL, none[i]) == 1, "no table says something");
}

static void *on_painted_stack(void *unused)
{
    (void)unused;
    answers();
    load();
    hangs();
    old_file();
    checks();
    refusals();
    replays();
    sessions();
    options();
    nothing();
    sites();
    release_windows();
    refused_calls();
    refused_files();
    refusal_texts();
    only_safe_is_safe();
    sets();
    steps();
    reasons();
    vacuous();
    return NULL;
}

int main(void)
{
    add(SHUNTBERRY_INITIAL, 0);
    add(SHUNTBERRY_MARKED, STATES - 1);
    for (unsigned state = 0; state + 1 < STATES; state++)
        add(SHUNTBERRY_ROW(state), state + 1);

    uint8_t *stack = aligned_alloc(4096, STACK);
    require(stack != NULL, "no memory");
    memset(stack, PAINT, STACK);
    pthread_attr_t attributes;
    pthread_t thread;
    require(pthread_attr_init(&attributes) == 0 && pthread_attr_setstack(&attributes, stack, STACK) == 0 &&
                pthread_create(&thread, &attributes, on_painted_stack, NULL) == 0 && pthread_join(thread, NULL) == 0,
            "no thread");

    size_t untouched = 0;
    while (untouched < STACK && stack[untouched] == PAINT)
        untouched++;
    require(STACK - untouched < STACK_LIMIT, "the calls take 128 KiB of stack or more");
    printf("the calls from C: as expected, within %zu KiB of stack\n", (STACK - untouched + 1023) / 1024);
    free(stack);
    return 0;
}
