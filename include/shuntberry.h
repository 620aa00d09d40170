/*
 * Shuntberry: is a forbidden state of a dialogue table reachable, and by which steps?
 *
 * The calls are check (from a file to a verdict and its text), decide, shortest path, distances, within, read, write,
 * rewrite (for files of the old form), generate, replay, the calls of an edit session (open, add a step, remove a step),
 * decide modal (for tables with steps that are only possible), and next open minute, which says when a release may be
 * loaded and reads no table.
 *
 * `pkg-config --cflags --libs shuntberry` gives the flags to compile and link with the shared library, which the program
 * then loads when it starts. `pkg-config --variable=archive shuntberry` names libshuntberry.a, with the same proved
 * objects: link that instead for a program that needs no Shuntberry where it runs.
 *
 * Nothing is allocated, nothing is kept between calls, and a call fails only with a refusal number. Calls may be made
 * from several threads at once, as long as no buffer that one of them writes is lent to another. A call takes less than
 * 128 KiB of stack (measured on the longest path).
 *
 * A TABLE has n states, numbered 0 to n - 1, with n from 0 to SHUNTBERRY_MAX_STATES, and g
 * groups, with g from 0 to SHUNTBERRY_MAX_GROUPS. A table without states, an untouched draft, has no groups either, and
 * its file has no bytes.
 * A SET of states is SHUNTBERRY_SET_WORDS words: state s is the bit of value 2^(s % 64) in word s / 64.
 * A STORE is at least SHUNTBERRY_STORE_WORDS words: the initial set, the marked set, the resting set, room for
 * SHUNTBERRY_MAX_GROUPS groups, and for each of SHUNTBERRY_MAX_STATES states the set of its successors (the offsets are
 * below). The words of groups from g up and of rows from n up are 0. Words past the first
 * SHUNTBERRY_STORE_WORDS are neither read nor written. A PATH is a list of 16-bit numbers, one for each state.
 *
 * A state is FORBIDDEN if it is marked, or if it has no successor and is not resting (a hang: a screen with no
 * way out). A marked state is forbidden whether it is resting or not. For a state with a successor, resting means
 * nothing. This is the meaning of forbidden in every call below, except that in shuntberry_decide_modal the possible
 * steps of a state count as its successors.
 *
 * Each buffer is a pointer and the number of its elements. As with any C buffer, the pointer must be
 * valid for that many elements and aligned for its type, and a buffer that a call writes must not
 * overlap another buffer of that call. If the number of elements is 0, nothing is read or written there, and the
 * pointer may be anything, also null. Apart from this, a call may be given anything: it refuses what it does not accept.
 *
 * A REFUSED call has a refusal number in `refusal`, and every buffer is as it was before the call. Its other fields
 * hold no answer, so a caller that forgets to test `refusal` does not take them for one:
 *  - a verdict is SHUNTBERRY_NO_VERDICT; `found`, `within` and `never` are SHUNTBERRY_NO_ANSWER;
 *  - n and g of a refused read are SHUNTBERRY_NO_TABLE, which every call that takes n refuses;
 *  - `minute` is SHUNTBERRY_NO_MINUTE, which is later than any minute that the call gives (keep it unsigned);
 *  - a set is empty, but a refused edit of a session gives back the set that it was given;
 *  - counts, sizes, steps and coverage are 0, and so is `length` of write: with a greater one, a caller might
 *    read past the buffer.
 * distances and generate return only the number. If several grounds hold, the call gives the one that its comment
 * names first; for 12 and 13 the blocks are taken in order, 12 before 13 in each.
 */
#ifndef SHUNTBERRY_H
#define SHUNTBERRY_H

#include <stddef.h>
#include <stdint.h>

#ifdef __cplusplus
extern "C" {
#endif

/* Is put before each call: compilers that know it warn if nobody looks at the result, and so at a refusal. */
#if (defined(__cplusplus) && __cplusplus >= 201703L) || (defined(__STDC_VERSION__) && __STDC_VERSION__ >= 202311L)
#define SHUNTBERRY_NODISCARD [[nodiscard]]
#elif defined(__GNUC__)
#define SHUNTBERRY_NODISCARD __attribute__((warn_unused_result))
#else
#define SHUNTBERRY_NODISCARD
#endif

/* ---- Version ---- */

/*
 * It goes up by one with each change that makes it necessary to change or recompile a program; CHANGELOG.md says
 * what changed. 1 is the header that had no such macro. From 2 on, shuntberry_read and shuntberry_write
 * are given the site of the file, after the input and after g: their signatures changed. Site 0 gives
 * the files of version 1. From 3 on, a table has up to 512 states: a set has 8 words, a store 4,624; a path is
 * 16-bit numbers in a buffer of at least 512 places (SHUNTBERRY_PATH_PLACES instead of SHUNTBERRY_PATH_BYTES);
 * and the allowance goes up to 512. The file of a table of up to 256 states is as it was; the largest file has
 * 37,376 bytes.
 *
 * From 4 on, a table has resting states:
 *  - a store has 4,632 words (one of 4,624 gets 10), with the resting set after the marked one, so groups
 *    and rows have moved. SHUNTBERRY_FORBIDDEN is gone: what was there is at SHUNTBERRY_MARKED, and is not all
 *    that is forbidden;
 *  - a state without successors is forbidden unless it is resting. So a table that is filled as before, with no
 *    state resting, may now be unsafe though it was safe;
 *  - files have another form. shuntberry_read refuses a file of the old form with SHUNTBERRY_GROUPS. If it is of
 *    site 0, shuntberry_rewrite makes a new file of it, in which its dead ends are resting, so decide answers as it did.
 *
 * From 5 on, the other fields of a refused call hold no answer: SHUNTBERRY_NO_VERDICT, SHUNTBERRY_NO_ANSWER,
 * SHUNTBERRY_NO_TABLE and SHUNTBERRY_NO_MINUTE. Before they were 0, which is also SHUNTBERRY_SAFE.
 * SHUNTBERRY_NO_MINUTE is also the minute of `never`. Otherwise an accepted call gives what it gave before, and
 * signatures and files are as they were.
 *
 * From 6 on, shuntberry_is_safe and shuntberry_modal_is_safe are also given n, and are 0 for a draft, as
 * shuntberry_checked_is_safe is. Nothing else changed for a program that compiles.
 */
#define SHUNTBERRY_VERSION 6
#define SHUNTBERRY_VERSION_TEXT "6.2.0" /* all of it: that number, then one for what is new, and one for the rest */

/*
 * SHUNTBERRY_VERSION of the library that the program runs with. Compare it with the program's own once, when the
 * program starts. Where they differ make no other call: structs and numbers may mean something else. It never refuses.
 */
SHUNTBERRY_NODISCARD
uint32_t shuntberry_version(void);

/* ---- Sizes ---- */

#define SHUNTBERRY_MAX_STATES 512    /* the greatest n */
#define SHUNTBERRY_MAX_GROUPS 64     /* the greatest g */
#define SHUNTBERRY_MAX_ALLOWANCE SHUNTBERRY_MAX_STATES /* the greatest allowance, and that of a release check */
#define SHUNTBERRY_SET_WORDS 8       /* words of a set */
#define SHUNTBERRY_HEAD_SETS 3       /* sets that stand before the groups: initial, marked and resting */
#define SHUNTBERRY_STORE_WORDS 4632  /* the least length of a store, in words */
#define SHUNTBERRY_PATH_PLACES SHUNTBERRY_MAX_STATES /* the least length of a path buffer, in 16-bit places */
#define SHUNTBERRY_UNREACHABLE 65535 /* the distance of a state from which no forbidden state can be reached */
#define SHUNTBERRY_BLOCK_BYTES 512   /* a file is whole blocks of this many bytes */
#define SHUNTBERRY_FILE_BYTES 37376  /* the length of the largest file, 73 blocks */
#define SHUNTBERRY_CHECK_TEXT 4096   /* the least length of the buffer for the text of a file, in bytes (check) */
#define SHUNTBERRY_MAX_SITE 65520    /* the greatest site number */
#define SHUNTBERRY_MAX_FAN_OUT 16    /* the greatest fan-out of a generated table */
#define SHUNTBERRY_MAX_LOG 32768     /* the greatest length of a pump's log, in bytes: 16,384 entries */
#define SHUNTBERRY_POSSIBLE_WORDS 4096 /* the least length of a buffer of possible steps, in words */
#define SHUNTBERRY_MAX_TIME 2147483647 /* the greatest time, in minutes: 2^31 - 1 */
#define SHUNTBERRY_MAX_WINDOWS 32    /* the greatest number of windows */
#define SHUNTBERRY_MAX_DAYS 64       /* the greatest number of closed days */

/* ---- Where the sets stand in a store, as the index of their first word ---- */

#define SHUNTBERRY_INITIAL 0                          /* the initial set */
#define SHUNTBERRY_MARKED SHUNTBERRY_SET_WORDS        /* the marked set: states that are forbidden, whether they are resting or not */
#define SHUNTBERRY_RESTING (2 * SHUNTBERRY_SET_WORDS) /* the resting set: states that may lead nowhere */
#define SHUNTBERRY_GROUP(j) (SHUNTBERRY_SET_WORDS * (SHUNTBERRY_HEAD_SETS + (j))) /* group j */
#define SHUNTBERRY_ROW(s) SHUNTBERRY_GROUP(SHUNTBERRY_MAX_GROUPS + (s))           /* the successors of state s */

#define SHUNTBERRY_POSSIBLE_ROW(s) (SHUNTBERRY_SET_WORDS * (s))                   /* the possible steps of state s, in their buffer */

/* ---- Sets of states ---- */

/*
 * A set is the SHUNTBERRY_SET_WORDS words that begin at store + SHUNTBERRY_MARKED, say, or the `words` of a struct
 * shuntberry_set. A state of SHUNTBERRY_MAX_STATES or more is in no set, and changes none.
 */

/* Whether a state is in a set: 1 or 0. */
static inline int shuntberry_has_state(const uint64_t *set, size_t state)
{
    return state < SHUNTBERRY_MAX_STATES && (set[state / 64] >> state % 64 & 1) != 0;
}

/* Puts a state into a set: 1, or 0 if no set has room for it. Look at it: a marked state that is lost is a wrong safe. */
SHUNTBERRY_NODISCARD
static inline int shuntberry_put_state(uint64_t *set, size_t state)
{
    if (state >= SHUNTBERRY_MAX_STATES)
        return 0;
    set[state / 64] |= (uint64_t)1 << state % 64;
    return 1;
}

/* Removes a state from a set. */
static inline void shuntberry_remove_state(uint64_t *set, size_t state)
{
    if (state < SHUNTBERRY_MAX_STATES)
        set[state / 64] &= ~((uint64_t)1 << state % 64);
}

/*
 * Draws the step from `from` to `to` into a store: 1, or 0 if there is no room for one of the two. (For a table that is
 * edited while the states that can be reached are shown, shuntberry_add_step keeps these up to date.)
 */
SHUNTBERRY_NODISCARD
static inline int shuntberry_draw_step(uint64_t *store, size_t from, size_t to)
{
    return from < SHUNTBERRY_MAX_STATES && shuntberry_put_state(store + SHUNTBERRY_ROW(from), to);
}

/* Draws a possible step into the buffer of these (shuntberry_decide_modal): 1, or 0 if there is no room for it. */
SHUNTBERRY_NODISCARD
static inline int shuntberry_draw_possible_step(uint64_t *possible, size_t from, size_t to)
{
    return from < SHUNTBERRY_MAX_STATES && shuntberry_put_state(possible + SHUNTBERRY_POSSIBLE_ROW(from), to);
}

/* ---- Refusal numbers ---- */

/*
 * Each has its ground above it, in the words of shuntberry_refusal_text. Where several grounds hold, the comment of
 * the call names the one first that it gives. `exactly` is what the specification says where these words are short
 * of it, `look whether` what a person should look at in a file that is refused so, `mended by` who can mend it.
 */

#define SHUNTBERRY_ACCEPTED 0 /* the call was not refused */

/*
 * the store has under 4,632 words, or the possible steps under 4,096
 *   mended by: the caller: lend a longer one
 */
#define SHUNTBERRY_STORE_SHORT 10

/*
 * the input's length is no multiple of 512, or over 37,376
 *   look whether: the file was cut short, has something behind it, or is no table
 *   mended by: whoever sent the file: it was cut, or is no table
 */
#define SHUNTBERRY_INPUT_LENGTH 11

/*
 * a block does not hold its own number
 *   look whether: a block is damaged, missing, there twice or out of order, or the file is no table
 *   mended by: whoever sent the file: blocks were lost, doubled or exchanged
 */
#define SHUNTBERRY_BLOCK_NUMBER 12

/*
 * a block's stored check is not its check for the site
 *   look whether: the file is damaged, or was made for another site: ask who made it, and do not try numbers,
 *     since a damaged file can pass at another one by chance
 *   mended by: whoever sent the file: bytes were damaged, or the block is another site's; get it again
 */
#define SHUNTBERRY_BLOCK_CHECK 13

/*
 * n is over 512, or 0 with groups, in a block or in a load
 *   look whether: the program that wrote the file gave it no states, or more than there can be
 *   mended by: in a file the drafter, whose table has no or too many states; else the caller, who gave the
 *     number
 */
#define SHUNTBERRY_STATES 14

/*
 * g is over 64, or a file's second number is not g + 32,768, as in the old form
 *   exactly: g is over 64; in read, the file's second number is below 32,768 or over 32,832; in rewrite, it
 *     is over 64
 *   look whether: the file is of the old form, of which the command rewrite makes a new one if it is of site
 *     0, or has too many groups
 *   mended by: in a file the drafter, whose table has too many groups, or whoever sent the file, which is of
 *     the old form; else the caller
 */
#define SHUNTBERRY_GROUPS 15

/*
 * the number of blocks is not that of a file with this n and g
 *   look whether: the file lost whole blocks at its end, or has more of them than its table
 *   mended by: whoever sent the file: whole blocks are missing at its end, or too many
 */
#define SHUNTBERRY_BLOCK_COUNT 16

/*
 * a set, the resting one included, holds a state from n up, or a word of an unused group or row is not 0,
 * also of the possible steps
 *   look whether: the program that wrote the file put a state into a set that the table does not have
 *   mended by: in a file whoever made it; else the caller, who filled the store
 */
#define SHUNTBERRY_STRAY_BIT 17

/*
 * a filler byte is not 0
 *   look whether: the program that wrote the file put something behind the table, in its last block
 *   mended by: whoever made the file
 */
#define SHUNTBERRY_FILLER 18

/*
 * the output is shorter than the file, or in check under 4,096 bytes
 *   mended by: the caller: lend a longer one; 37,376 bytes are always enough
 */
#define SHUNTBERRY_OUTPUT_SHORT 19

/*
 * the allowance is over 512
 *   mended by: the caller
 */
#define SHUNTBERRY_ALLOWANCE 20

/*
 * the path buffer has under 512 places
 *   mended by: the caller
 */
#define SHUNTBERRY_PATH_SHORT 21

/*
 * the fan-out is over 16
 *   mended by: the caller, or whoever gave `generate` the number
 */
#define SHUNTBERRY_FAN_OUT 22

/*
 * the distance buffer has fewer than n places
 *   mended by: the caller
 */
#define SHUNTBERRY_DISTANCES_SHORT 23

/*
 * the site is over 65,520
 *   mended by: the caller
 */
#define SHUNTBERRY_SITE 24

/*
 * the log's length is odd
 *   mended by: whoever read the log: half an entry is missing
 */
#define SHUNTBERRY_LOG_ODD 25

/*
 * the log has over 32,768 bytes
 *   mended by: the caller: replay a shorter one
 */
#define SHUNTBERRY_LOG_LONG 26

/*
 * a state number of an edit is n or more
 *   mended by: the caller
 */
#define SHUNTBERRY_STEP_STATE 27

/*
 * a certain step is not possible
 *   mended by: the drafter, whose two rows of a state do not fit each other
 */
#define SHUNTBERRY_NOT_POSSIBLE 28

/*
 * a window starts past minute 10,079 of the week, or is 0 or over 10,080 minutes long
 *   mended by: the house, whose window it is; or the caller, who made the number
 */
#define SHUNTBERRY_WINDOW_RANGE 29

/*
 * there are over 32 windows or over 64 closed days
 *   mended by: the house, which has too many
 */
#define SHUNTBERRY_TOO_MANY 30

/*
 * the time is over 2^31 - 1
 *   mended by: the caller
 */
#define SHUNTBERRY_TIME 31

/*
 * The ground of a refusal, in words. A number that is no refusal, such as 0, gets words that say so.
 */
static inline const char *shuntberry_refusal_text(uint32_t refusal)
{
    switch (refusal) {
    case SHUNTBERRY_STORE_SHORT:
        return "the store has under 4,632 words, or the possible steps under 4,096";
    case SHUNTBERRY_INPUT_LENGTH:
        return "the input's length is no multiple of 512, or over 37,376";
    case SHUNTBERRY_BLOCK_NUMBER:
        return "a block does not hold its own number";
    case SHUNTBERRY_BLOCK_CHECK:
        return "a block's stored check is not its check for the site";
    case SHUNTBERRY_STATES:
        return "n is over 512, or 0 with groups, in a block or in a load";
    case SHUNTBERRY_GROUPS:
        return "g is over 64, or a file's second number is not g + 32,768, as in the old form";
    case SHUNTBERRY_BLOCK_COUNT:
        return "the number of blocks is not that of a file with this n and g";
    case SHUNTBERRY_STRAY_BIT:
        return "a set, the resting one included, holds a state from n up, or a word of an unused group or row is not 0, also of the possible steps";
    case SHUNTBERRY_FILLER:
        return "a filler byte is not 0";
    case SHUNTBERRY_OUTPUT_SHORT:
        return "the output is shorter than the file, or in check under 4,096 bytes";
    case SHUNTBERRY_ALLOWANCE:
        return "the allowance is over 512";
    case SHUNTBERRY_PATH_SHORT:
        return "the path buffer has under 512 places";
    case SHUNTBERRY_FAN_OUT:
        return "the fan-out is over 16";
    case SHUNTBERRY_DISTANCES_SHORT:
        return "the distance buffer has fewer than n places";
    case SHUNTBERRY_SITE:
        return "the site is over 65,520";
    case SHUNTBERRY_LOG_ODD:
        return "the log's length is odd";
    case SHUNTBERRY_LOG_LONG:
        return "the log has over 32,768 bytes";
    case SHUNTBERRY_STEP_STATE:
        return "a state number of an edit is n or more";
    case SHUNTBERRY_NOT_POSSIBLE:
        return "a certain step is not possible";
    case SHUNTBERRY_WINDOW_RANGE:
        return "a window starts past minute 10,079 of the week, or is 0 or over 10,080 minutes long";
    case SHUNTBERRY_TOO_MANY:
        return "there are over 32 windows or over 64 closed days";
    case SHUNTBERRY_TIME:
        return "the time is over 2^31 - 1";
    default:
        return "no ground that this version of the header knows";
    }
}

/* ---- Verdicts ---- */

#define SHUNTBERRY_SAFE 0      /* no forbidden state can be reached from an initial one (decide modal: in no choice) */
#define SHUNTBERRY_UNSAFE 1    /* one can be reached: the path buffer shows how (decide modal: in every choice) */
#define SHUNTBERRY_UNDECIDED 2 /* the allowance was used up before either was known (decide) */
#define SHUNTBERRY_DEPENDS 3   /* none can be reached with the certain steps alone, one can with all possible steps: the path buffer shows how (decide modal) */

/* ---- What a refused call has in place of an answer ---- */

#define SHUNTBERRY_NO_VERDICT 255 /* for a verdict (decide, decide modal) */
#define SHUNTBERRY_NO_ANSWER 255  /* for a yes or no, 1 or 0: found, within, never */
#define SHUNTBERRY_NO_TABLE 65535 /* for n and g (read). Every call that takes n refuses this one, with 14 unless 10 or 24 comes first */
#define SHUNTBERRY_NO_MINUTE 4294967295u /* for the minute (next open), also if no minute is ever open: later than any that the call gives */

/* ---- Why a state is forbidden ---- */

#define SHUNTBERRY_FORBIDDEN_NOT 0    /* it is not forbidden */
#define SHUNTBERRY_FORBIDDEN_MARKED 1 /* it is marked, whether it is a hang too or not */
#define SHUNTBERRY_FORBIDDEN_HANG 2   /* it is a hang: it has no successor, and is not resting */

/*
 * Why a state is forbidden in a table that the calls accept, one of n states in a store of SHUNTBERRY_STORE_WORDS words
 * or more. SHUNTBERRY_NO_ANSWER if the table has no such state.
 */
static inline uint32_t shuntberry_why_forbidden(const uint64_t *store, size_t n, size_t state)
{
    uint64_t successors = 0;
    if (n > SHUNTBERRY_MAX_STATES || state >= n)
        return SHUNTBERRY_NO_ANSWER;
    if (shuntberry_has_state(store + SHUNTBERRY_MARKED, state))
        return SHUNTBERRY_FORBIDDEN_MARKED;
    for (size_t word = 0; word < SHUNTBERRY_SET_WORDS; word++)
        successors |= store[SHUNTBERRY_ROW(state) + word];
    return successors == 0 && !shuntberry_has_state(store + SHUNTBERRY_RESTING, state) ? SHUNTBERRY_FORBIDDEN_HANG
                                                                                        : SHUNTBERRY_FORBIDDEN_NOT;
}

/*
 * Whether a table of n states, in such a store, is VACUOUS: no state of it is initial or none is forbidden, so that it
 * is safe whatever else is in it: 1 or 0. Nothing is known of a pump then, so do not release it. It is 1 too, and the
 * store is not read, if n is 0 or over SHUNTBERRY_MAX_STATES, as that of a refused read is. Beside
 * shuntberry_decide_modal ask it of the table whose rows are the possible steps: these decide there what is a hang.
 */
static inline int shuntberry_is_vacuous(const uint64_t *store, size_t n)
{
    int initial = 0, forbidden = 0;
    for (size_t state = 0; n <= SHUNTBERRY_MAX_STATES && state < n; state++) {
        initial |= shuntberry_has_state(store + SHUNTBERRY_INITIAL, state);
        forbidden |= shuntberry_why_forbidden(store, n, state) != SHUNTBERRY_FORBIDDEN_NOT;
    }
    return !(initial && forbidden);
}

/* ---- The calls ---- */

/* What shuntberry_check answers. */
struct shuntberry_checked {
    size_t length;         /* bytes of text at the front of the buffer; of a refused call 0 */
    size_t n;              /* the table's number of states; SHUNTBERRY_NO_TABLE where the file or the call is refused */
    uint32_t refusal;      /* 0, or the number of the refusal of the call itself */
    uint32_t file_refusal; /* 0, or the number with which the file is refused; that is an answer, and the text says so */
    uint32_t verdict;      /* SHUNTBERRY_SAFE or SHUNTBERRY_UNSAFE; SHUNTBERRY_NO_VERDICT where the file or the call is refused */
    uint32_t reserved;     /* 0 */
};

/*
 * The simplest right way to use the library: one call from a file's bytes to the verdict of a release check and to
 * the text that the program `check` prints for it. The text is put at the front of `text`; no other byte is touched.
 * The text has no 0 at its end: `length` says how long it is.
 *
 *     struct shuntberry_checked checked = shuntberry_check(input, length, 0, text, sizeof text);
 *     if (shuntberry_checked_is_safe(checked)) ...
 *
 * An input of no bytes is a draft: safe, with n 0. Read the file into a buffer of one byte more than
 * SHUNTBERRY_FILE_BYTES, so that a longer file is seen to be too long.
 *
 * Refuses with 24 or 19. That a file is refused is an answer: `file_refusal` has the number that shuntberry_read
 * gives.
 */
SHUNTBERRY_NODISCARD
struct shuntberry_checked shuntberry_check(const uint8_t *input, size_t input_len, size_t site, uint8_t *text,
                                           size_t text_len);

/*
 * Whether the call and the file were accepted, the verdict is safe and the table has states: 1 or 0. As in
 * shuntberry_is_safe, it is 1 of a table in which nothing is initial or nothing is forbidden too: read the same bytes
 * and ask shuntberry_is_vacuous before you release them.
 */
static inline int shuntberry_checked_is_safe(struct shuntberry_checked checked)
{
    return checked.refusal == SHUNTBERRY_ACCEPTED && checked.file_refusal == SHUNTBERRY_ACCEPTED
        && checked.verdict == SHUNTBERRY_SAFE && checked.n > 0;
}

/* What shuntberry_decide answers. */
struct shuntberry_decision {
    uint64_t invariant[SHUNTBERRY_SET_WORDS]; /* if safe, a set with the initial states, the successors of each of its states, and no forbidden state; else empty */
    uint32_t refusal;      /* 0, or the number of the refusal */
    uint32_t verdict;      /* SHUNTBERRY_SAFE, SHUNTBERRY_UNSAFE or SHUNTBERRY_UNDECIDED; of a refused call SHUNTBERRY_NO_VERDICT */
    uint32_t count;        /* the number of refinements made */
    uint32_t size;         /* the number of states in the invariant */
    uint32_t steps;        /* if unsafe, the number of steps of the path; else 0 */
    uint32_t reserved;     /* 0 */
};

/*
 * Decides by rounds of forward and backward fixpoints, with at most `allowance` refinements between
 * them. With SHUNTBERRY_MAX_ALLOWANCE the answer is never undecided. `path_len` is the number of places.
 *
 * If unsafe, the first steps + 1 places of `path` are the states of a shortest path from an initial
 * to a forbidden state. Of all shortest paths it is the one with the smallest first state, then the smallest
 * second, and so on. No other place is touched. If safe or undecided, nothing is written.
 * The store is never changed.
 *
 * Refuses with 10, 14, 15, 17, 20 or 21.
 */
SHUNTBERRY_NODISCARD
struct shuntberry_decision shuntberry_decide(const uint64_t *store, size_t store_len, size_t n, size_t g,
                                             size_t allowance, uint16_t *path, size_t path_len);

/*
 * Whether the call was accepted, the verdict is safe and the table has states: 1 or 0. `n` is the one that the call was
 * given. A table without states, a draft, is nothing to release: shuntberry_read makes it of no bytes, and so of an
 * empty file, or of a read that failed and was taken for one.
 *
 * Safe is said of a table in which nothing is initial or nothing is forbidden too: shuntberry_is_vacuous.
 */
static inline int shuntberry_is_safe(struct shuntberry_decision decision, size_t n)
{
    return decision.refusal == SHUNTBERRY_ACCEPTED && decision.verdict == SHUNTBERRY_SAFE && n > 0;
}

/* What shuntberry_shortest_path answers. */
struct shuntberry_shortest {
    uint32_t refusal; /* 0, or the number of the refusal */
    uint32_t found;   /* 1 if there is a path, 0 if there is none; of a refused call SHUNTBERRY_NO_ANSWER */
    uint32_t steps;   /* the number of its steps, 0 if there is none */
};

/*
 * Finds the path that shuntberry_decide gives, without the rounds. It is put into the first steps + 1 places of
 * `path`, and no other place is touched. If there is no path, nothing is written. The store is never changed.
 *
 * Refuses with 10, 14, 15, 17 or 21.
 */
SHUNTBERRY_NODISCARD
struct shuntberry_shortest shuntberry_shortest_path(const uint64_t *store, size_t store_len, size_t n, size_t g,
                                                    uint16_t *path, size_t path_len);

/*
 * Writes the distance of each state at the front of `distances`, one place for each of the n states. The distance is
 * the number of steps from the state to the nearest forbidden state (0 for a forbidden state), or
 * SHUNTBERRY_UNREACHABLE if no forbidden state can be reached. Places past n are not touched. The store is never changed.
 * `distances_len` is the number of places. Returns 0, or the number of the refusal.
 *
 * Refuses with 10, 14, 15, 17 or 23. The buffer is then as it was before. Only the returned number shows this: look
 * at it.
 */
SHUNTBERRY_NODISCARD
uint32_t shuntberry_distances(const uint64_t *store, size_t store_len, size_t n, size_t g, uint16_t *distances,
                              size_t distances_len);

/* What shuntberry_within answers. */
struct shuntberry_within {
    uint32_t refusal; /* 0, or the number of the refusal */
    uint32_t within;  /* 1 if there is a path of at most k steps, 0 if there is none; of a refused call SHUNTBERRY_NO_ANSWER */
};

/*
 * Is there a path of at most k steps from an initial to a forbidden state? For every k: for 0 it asks
 * for a state that is initial and forbidden, such as an initial hang. The search goes outward from the
 * initial states, layer by layer. It stops at the first layer that holds a forbidden state, or when a layer
 * brings no new state. The store is never changed.
 *
 * Refuses with 10, 14, 15 or 17.
 */
SHUNTBERRY_NODISCARD
struct shuntberry_within shuntberry_within(const uint64_t *store, size_t store_len, size_t n, size_t g, size_t k);

/* What shuntberry_read answers. */
struct shuntberry_table {
    uint32_t refusal; /* 0, or the number of the refusal */
    uint32_t n;       /* the table's number of states; of a refused call SHUNTBERRY_NO_TABLE, so do not use it as the bound of a loop then */
    uint32_t g;       /* the table's number of groups; of a refused call SHUNTBERRY_NO_TABLE */
};

/*
 * Reads a block file of a site into the first SHUNTBERRY_STORE_WORDS words of `store`; no other word is touched.
 * The input is never changed. The sum of each block starts from the site. So a block that was made for another
 * site, is unaltered and stands at its own number is refused with 13, once all that is looked at before it passes.
 *
 * Each block holds its number and a check of 16 bits. Proved: one changed byte of a block does not pass, nor do two
 * unequal bytes that were exchanged. Nor do blocks that were lost, doubled or exchanged, unless all are lost, which
 * leaves a draft. Other damage can pass: by chance in about one of 65,521 damaged blocks, and on purpose, as a block
 * does that stands at its number in another file of the site. A SHA-256 of the file, sent another way, finds all that.
 *
 * An input of no bytes is an untouched draft, at every site: n and g are 0, and so is each of those words. So do
 * not pass on a read that failed as one of no bytes.
 * A file of the old form, as versions 1 to 3 wrote it, is refused with 15; shuntberry_rewrite makes a new one of it.
 *
 * Refuses with 10, 24, 11, then 12 and 13 block by block, 14, 15, 16, 17 (of set bytes only) or 18; of an input of no
 * bytes with 10 or 24 only.
 */
SHUNTBERRY_NODISCARD
struct shuntberry_table shuntberry_read(const uint8_t *input, size_t input_len, size_t site, uint64_t *store,
                                        size_t store_len);

/* What shuntberry_write answers. */
struct shuntberry_file {
    uint32_t refusal; /* 0, or the number of the refusal */
    uint32_t length;  /* the length of the file in bytes, a multiple of 512; 0 for a draft, and of a refused call */
};

/*
 * Writes the table as a block file for a site at the front of `output`, and no other byte. An output of
 * SHUNTBERRY_FILE_BYTES is always long enough. The store is never changed.
 *
 * A refused call has the length 0, which is that of a draft: with any other length, a caller might read past the output.
 * A file of no bytes is a table, and safe. So test `refusal` before you write anything to a disk.
 *
 * Refuses with 10, 24, 14, 15, 17 or 19.
 */
SHUNTBERRY_NODISCARD
struct shuntberry_file shuntberry_write(const uint64_t *store, size_t store_len, size_t n, size_t g, size_t site,
                                        uint8_t *output, size_t output_len);

/*
 * Rewrites a file of site 0 of the old form, as versions 1 to 3 wrote it, in the new form: the same table with its dead
 * ends, and no other state, resting. So decide answers on it as before. The new file is put at the front of `output`, and
 * no other byte is touched. An output of SHUNTBERRY_FILE_BYTES is always long enough.
 *
 * Refuses with 11, then 12 and 13 block by block, 14, 15, 16, 17 or 18, as the old form refuses the file, or 19; an
 * input of no bytes with none. A file of the new form gets 15. Nothing is written then. As with shuntberry_write,
 * test `refusal` first.
 */
SHUNTBERRY_NODISCARD
struct shuntberry_file shuntberry_rewrite(const uint8_t *input, size_t input_len, uint8_t *output, size_t output_len);

/*
 * Fills the first SHUNTBERRY_STORE_WORDS words of `store` with the table that a seed gives, and touches no other word.
 * The table has n states and no groups; state 0 is initial, state n - 1 is marked, and none is resting. Each state in
 * turn takes the next `fan_out` of a sequence of numbers; each modulo n is a successor. (With a fan-out of 0 every
 * state is a hang.) Every call that takes a table accepts it, with g = 0. The numbers are 32 bits wide: the first is the
 * seed, each of the next 54 the one before plus 2,654,435,769, and each from the 56th on the sum of the
 * numbers 24 and 55 places back, all modulo 2^32; the states take those from the 56th on.
 *
 * Returns 0, or the number of the refusal. The store is then as it was before. Only the returned number shows this: look
 * at it. A zeroed store holds a draft for n = 0 alone; for a greater n, a table in which nothing is initial, which is
 * safe and vacuous.
 *
 * Refuses with 10, 14 or 22.
 */
SHUNTBERRY_NODISCARD
uint32_t shuntberry_generate(uint32_t seed, size_t n, size_t fan_out, uint64_t *store, size_t store_len);

/* What shuntberry_replay answers. */
struct shuntberry_replay {
    uint32_t refusal;   /* 0, or the number of the refusal */
    uint32_t followed;  /* the number of entries before the first that breaks the walk; all of them if none does */
    uint32_t seen;      /* the number of different states that those hold */
    uint32_t percent;   /* 100 times `seen`, divided by the number of states that can be reached; 0 if there are none */
    uint32_t remainder; /* what that division leaves; 0 if there are none */
};

/*
 * Follows a pump's log through the table. The log is a list of state numbers of two bytes each, low byte
 * first. The first entry must be initial, each later one a successor of the entry before; an entry of
 * n or more is neither. The states that can be reached include the initial ones. A forbidden entry, marked
 * or a hang, is followed like any other; but on a table that shuntberry_decide calls safe, no followed entry is
 * forbidden. Nothing is written.
 *
 * Refuses with 10, 14, 15, 17, 25 or 26.
 */
SHUNTBERRY_NODISCARD
struct shuntberry_replay shuntberry_replay(const uint64_t *store, size_t store_len, size_t n, size_t g,
                                           const uint8_t *log, size_t log_len);

/* ---- Edit sessions: the states that can be reached, while steps are drawn and rubbed out ---- */

/* A set of states. It is passed and returned by value: no call keeps or changes the caller's own. */
struct shuntberry_set {
    uint64_t words[SHUNTBERRY_SET_WORDS];
};

/* What the three calls of a session answer, by value. */
struct shuntberry_session {
    struct shuntberry_set reachable; /* the set after the call; of a refused edit the set that it was given, of a refused opening the empty one */
    uint32_t refusal;                /* 0, or the number of the refusal */
    uint32_t reserved;               /* 0 */
};

/*
 * Opens a table: `reachable` is the set of the states that can be reached from the initial ones, including these.
 * Nothing is kept between calls: the session is the store and this set, and the caller keeps both.
 * The store is not changed.
 *
 *     struct shuntberry_session now = shuntberry_open(store, store_len, n, g);
 *     now = shuntberry_add_step(store, store_len, n, g, now.reachable, 4, 2);
 *     now = shuntberry_remove_step(store, store_len, n, g, now.reachable, 0, 1);
 *
 * Refuses with 10, 14, 15 or 17.
 */
SHUNTBERRY_NODISCARD
struct shuntberry_session shuntberry_open(const uint64_t *store, size_t store_len, size_t n, size_t g);

/*
 * Adds the step from `from` to `to` to the table in the store, or removes it: at most one word of the store
 * changes, in the row of `from`. After every list of edits from an opened table, the set is the one that
 * shuntberry_open gives for the table as edited. For this, give each edit the set that the one before returned, and
 * the same n and g, and let nothing else change the store between them; otherwise open again. A refused edit counts
 * as none.
 *
 * For any set that is given: adding a step that exists, or removing one that does not, changes neither
 * the set nor the store. Otherwise, adding a step from a state that is not in the set leaves the set as it is; adding
 * one from a state of the set adds to it all that `to` reaches, `to` included; and removing a step gives what the
 * initial states reach. States from n up in the set are no reason to refuse: an addition keeps them, a removal of a
 * step that exists drops them.
 *
 * Any edit may change what shuntberry_decide answers, also by making a hang or by giving one a way out: call it
 * again. Which states are reached does not depend on which are forbidden.
 *
 * Refuses with 10, 14, 15, 17 or 27. Store and set are then as they were before.
 */
SHUNTBERRY_NODISCARD
struct shuntberry_session shuntberry_add_step(uint64_t *store, size_t store_len, size_t n, size_t g,
                                              struct shuntberry_set reachable, size_t from, size_t to);
SHUNTBERRY_NODISCARD
struct shuntberry_session shuntberry_remove_step(uint64_t *store, size_t store_len, size_t n, size_t g,
                                                 struct shuntberry_set reachable, size_t from, size_t to);

/* What shuntberry_decide_modal answers. */
struct shuntberry_modal {
    uint64_t invariant[SHUNTBERRY_SET_WORDS]; /* if safe, that of a release check on the possible steps, which is an invariant of every choice; if it depends, that on the certain steps; else empty */
    uint32_t refusal; /* 0, or the number of the refusal */
    uint32_t verdict; /* SHUNTBERRY_SAFE, SHUNTBERRY_UNSAFE or SHUNTBERRY_DEPENDS; of a refused call SHUNTBERRY_NO_VERDICT */
    uint32_t size;    /* the number of states in the invariant */
    uint32_t steps;   /* if unsafe or if it depends, the number of steps of the path; else 0 */
};

/*
 * Decides for all pumps of a family at once, if some steps exist only with an option bought. The rows in
 * `store` are the CERTAIN steps; `possible` has a second row for each state (SHUNTBERRY_POSSIBLE_ROW), its
 * POSSIBLE steps, which include the certain ones. The words of rows from n up are 0; those past the first
 * SHUNTBERRY_POSSIBLE_WORDS are not read. (The field's term is a modal transition system: its must steps and
 * its may steps.)
 *
 * A CHOICE has, for each state, all of its certain steps and any of the other possible ones, step by step,
 * whether or not such a pump is sold: so SHUNTBERRY_DEPENDS may be due to pumps that nobody makes. The verdict is
 * safe if every choice is safe, unsafe if every choice is unsafe, and otherwise SHUNTBERRY_DEPENDS: then the certain
 * steps alone are a safe choice, and all possible steps are an unsafe one. It is never undecided.
 *
 * A state is forbidden if it is marked, or if it has no POSSIBLE step and is not resting: the same states for
 * every choice. So a state that has possible steps but no certain one is no hang here, even in a choice that gives it
 * no step. For shuntberry_decide, which is given the choice as a table of its own, it is a hang unless it is resting.
 * So a choice that is safe here may be unsafe there; and on one and the same store, whose rows are the certain steps,
 * that call may say unsafe while this one says safe or that it depends.
 *
 * If unsafe, the first steps + 1 places of `path` are the path that a release check gives on the certain
 * steps, which is a path of every choice; if it depends, they are the path that it gives on the possible steps. No
 * other place is touched, and if safe none is. If both rows of each state are equal, an accepted call has the
 * verdict, invariant, size, steps and path of shuntberry_decide with SHUNTBERRY_MAX_ALLOWANCE. Neither the store
 * nor `possible` is changed.
 *
 * Refuses with 10 (either buffer), 14, 15, 17 (either buffer), 28 or 21.
 */
SHUNTBERRY_NODISCARD
struct shuntberry_modal shuntberry_decide_modal(const uint64_t *store, size_t store_len, size_t n, size_t g,
                                                const uint64_t *possible, size_t possible_len, uint16_t *path,
                                                size_t path_len);

/*
 * Whether the call was accepted, every choice is safe and the table has states: 1 or 0. As in shuntberry_is_safe, a
 * table in which nothing is initial or nothing is forbidden is safe too.
 */
static inline int shuntberry_modal_is_safe(struct shuntberry_modal decision, size_t n)
{
    return decision.refusal == SHUNTBERRY_ACCEPTED && decision.verdict == SHUNTBERRY_SAFE && n > 0;
}

/* ---- When a release may be loaded ---- */

/*
 * A weekly window of `length` minutes, which begins `start` minutes after the beginning of the week. Weeks begin on
 * Saturday at 00:00. The number has the start in its low 32 bits and the length in its high 32. A start or length
 * that does not fit becomes 2^32 - 1, which is out of range too: so the call refuses such a window, and
 * never takes a part of the number for the whole.
 */
static inline uint64_t shuntberry_window(uint64_t start, uint64_t length)
{
    const uint64_t most = 0xffffffff;
    return (start < most ? start : most) | (length < most ? length : most) << 32;
}

/* What shuntberry_next_open answers. */
struct shuntberry_minute {
    uint32_t refusal; /* 0, or the number of the refusal */
    uint32_t never;   /* 1 if there is no window, so that no minute is ever open; else 0; of a refused call SHUNTBERRY_NO_ANSWER */
    uint32_t minute;  /* the first open minute; SHUNTBERRY_NO_MINUTE if there is none, or if the call is refused */
};

/*
 * The first open minute at or after `time`. Time is whole minutes since 1 January 2000, 00:00, a Saturday.
 * A minute is open if it lies in one of the windows and its day is not closed. A window's first minute is
 * in, the minute after its last is out. It may run over the week's end, and it recurs in every week, including
 * the week before minute 0. Days are counted from that Saturday, which is day 0, and any 32-bit number may be
 * named; a day that is named twice counts twice towards the 64.
 *
 * With at least one window there always is an open minute, less than 655,200 minutes later; it may lie
 * past SHUNTBERRY_MAX_TIME. Neither buffer is changed.
 *
 * Refuses with 31, 30 or 29.
 */
SHUNTBERRY_NODISCARD
struct shuntberry_minute shuntberry_next_open(size_t time, const uint64_t *windows, size_t windows_len,
                                              const uint32_t *closed_days, size_t closed_days_len);

#ifdef __cplusplus
}
#endif

#endif
