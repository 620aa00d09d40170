/*
 * A library that is none: it has the calls of the header, accepts everything, and answers with what LIE says. The Python module must take none of it for an
 * answer. Without LACKS it has all calls. With OTHER it says that it is of that version.
 */
#include <string.h>

#include "shuntberry.h"

#ifndef OTHER
#define OTHER SHUNTBERRY_VERSION
#endif

uint32_t shuntberry_version(void)
{
    return OTHER;
}

struct shuntberry_checked shuntberry_check(const uint8_t *input, size_t input_len, size_t site, uint8_t *text, size_t text_len)
{
    (void)input, (void)input_len, (void)site;
    memset(text, 'a', text_len);
    return (struct shuntberry_checked){.length = LIE == 1 ? text_len + 1 : 1, .n = 1, .file_refusal = LIE == 2 ? 13 : 0, .verdict = LIE == 2 ? 0 : LIE};
}

struct shuntberry_decision shuntberry_decide(const uint64_t *store, size_t store_len, size_t n, size_t g, size_t allowance, uint16_t *path, size_t path_len)
{
    (void)store, (void)store_len, (void)n, (void)g, (void)allowance, (void)path, (void)path_len;
    return (struct shuntberry_decision){.verdict = LIE == 2 ? 3 : LIE, .steps = 512};
}

struct shuntberry_shortest shuntberry_shortest_path(const uint64_t *store, size_t store_len, size_t n, size_t g, uint16_t *path, size_t path_len)
{
    (void)store, (void)store_len, (void)n, (void)g, (void)path, (void)path_len;
    return (struct shuntberry_shortest){.found = LIE, .steps = LIE == 1 ? UINT32_MAX : 0};
}

uint32_t shuntberry_distances(const uint64_t *store, size_t store_len, size_t n, size_t g, uint16_t *distances, size_t distances_len)
{
    (void)store, (void)store_len, (void)n, (void)g, (void)distances, (void)distances_len;
    return LIE;
}

struct shuntberry_within shuntberry_within(const uint64_t *store, size_t store_len, size_t n, size_t g, size_t k)
{
    (void)store, (void)store_len, (void)n, (void)g;
    return (struct shuntberry_within){.within = k == 0 ? 0 : LIE == 1 ? 2 : LIE};
}

struct shuntberry_table shuntberry_read(const uint8_t *input, size_t input_len, size_t site, uint64_t *store, size_t store_len)
{
    (void)input, (void)input_len, (void)site, (void)store, (void)store_len;
    return (struct shuntberry_table){.n = LIE == 1 ? 513 : 3, .g = LIE == 1 ? 0 : 65};
}

struct shuntberry_file shuntberry_write(const uint64_t *store, size_t store_len, size_t n, size_t g, size_t site, uint8_t *output, size_t output_len)
{
    (void)store, (void)store_len, (void)n, (void)g, (void)site, (void)output;
    return (struct shuntberry_file){.length = (uint32_t)output_len + 1};
}

#ifndef LACKS
struct shuntberry_file shuntberry_rewrite(const uint8_t *input, size_t input_len, uint8_t *output, size_t output_len)
{
    (void)input, (void)input_len, (void)output, (void)output_len;
    return (struct shuntberry_file){.length = UINT32_MAX};
}
#endif

uint32_t shuntberry_generate(uint32_t seed, size_t n, size_t fan_out, uint64_t *store, size_t store_len)
{
    (void)seed, (void)n, (void)fan_out, (void)store, (void)store_len;
    return LIE;
}

struct shuntberry_replay shuntberry_replay(const uint64_t *store, size_t store_len, size_t n, size_t g, const uint8_t *log, size_t log_len)
{
    (void)store, (void)store_len, (void)n, (void)g, (void)log, (void)log_len;
    return (struct shuntberry_replay){.refusal = LIE};
}

struct shuntberry_session shuntberry_open(const uint64_t *store, size_t store_len, size_t n, size_t g)
{
    (void)store, (void)store_len, (void)n, (void)g;
    return (struct shuntberry_session){.refusal = LIE};
}

struct shuntberry_session shuntberry_add_step(uint64_t *store, size_t store_len, size_t n, size_t g, struct shuntberry_set reachable, size_t from, size_t to)
{
    (void)store, (void)store_len, (void)n, (void)g, (void)from, (void)to;
    return (struct shuntberry_session){.reachable = reachable, .refusal = LIE};
}

struct shuntberry_session shuntberry_remove_step(uint64_t *store, size_t store_len, size_t n, size_t g, struct shuntberry_set reachable, size_t from, size_t to)
{
    return shuntberry_add_step(store, store_len, n, g, reachable, from, to);
}

struct shuntberry_modal shuntberry_decide_modal(const uint64_t *store, size_t store_len, size_t n, size_t g, const uint64_t *possible, size_t possible_len, uint16_t *path, size_t path_len)
{
    (void)store, (void)store_len, (void)n, (void)g, (void)possible, (void)possible_len, (void)path, (void)path_len;
    return (struct shuntberry_modal){.verdict = LIE, .steps = 512};
}

struct shuntberry_minute shuntberry_next_open(size_t time, const uint64_t *windows, size_t windows_len, const uint32_t *closed_days, size_t closed_days_len)
{
    (void)time, (void)windows, (void)windows_len, (void)closed_days, (void)closed_days_len;
    return (struct shuntberry_minute){.never = LIE == 1 ? 0 : LIE, .minute = SHUNTBERRY_NO_MINUTE};
}
