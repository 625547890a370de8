/*
 * Helpers for the tests of the C interface: checks, slices to lend, random numbers, and packing of
 * records, lists and death rates. The tests make each call on the engine (gmwb_*) and on the second
 * program (second_*), with equal slices, and compare all that the two tell and leave.
 */
#ifndef HOST_TEST_H
#define HOST_TEST_H

#include <inttypes.h>
#include <stdarg.h>
#include <stdbool.h>
#include <stdio.h>
#include <stdlib.h>
#include <string.h>

#include "gmwb.h"

/* ---- The second program (second/c.rs) --------------------------------------------------------- */

uint32_t second_check(const uint8_t *record, size_t record_len);
uint32_t second_sizes(const uint8_t *record, size_t record_len,
                      uint64_t *work, uint64_t *table, uint64_t *map);
uint32_t second_book(const uint8_t *record, size_t record_len,
                     uint64_t date, uint64_t account, uint64_t guarantee, uint64_t amount,
                     uint8_t *out, size_t out_len);
uint32_t second_value(const uint8_t *record, size_t record_len,
                      const uint8_t *list, size_t list_len,
                      const uint8_t *rates, size_t rates_len,
                      uint64_t behaviour,
                      uint64_t *work, size_t work_len,
                      uint16_t *table, size_t table_len,
                      uint64_t *place, uint64_t *value, int64_t *margin);
uint32_t second_value_no_table(const uint8_t *record, size_t record_len,
                               const uint8_t *list, size_t list_len,
                               const uint8_t *rates, size_t rates_len,
                               uint64_t behaviour,
                               uint64_t *work, size_t work_len,
                               uint64_t *place, uint64_t *value, int64_t *margin);
uint32_t second_value_map(const uint8_t *record, size_t record_len,
                          const uint8_t *list, size_t list_len,
                          const uint8_t *rates, size_t rates_len,
                          uint64_t behaviour,
                          uint64_t *work, size_t work_len,
                          uint16_t *table, size_t table_len,
                          uint64_t *map, size_t map_len,
                          uint64_t *place, uint64_t *value, int64_t *margin, uint64_t *count);
uint32_t second_fee(const uint8_t *record, size_t record_len,
                    const uint8_t *list, size_t list_len,
                    const uint8_t *rates, size_t rates_len,
                    uint64_t behaviour, uint64_t wanted,
                    uint64_t *work, size_t work_len,
                    uint64_t *place, uint64_t *fee, uint64_t *value, int64_t *margin);
uint32_t second_value_table(const uint8_t *record, size_t record_len,
                            const uint8_t *list, size_t list_len,
                            const uint8_t *rates, size_t rates_len,
                            uint64_t *work, size_t work_len,
                            const uint16_t *table, size_t table_len,
                            uint64_t *place, uint64_t *value, int64_t *margin);
uint32_t second_walk(const uint8_t *record, size_t record_len,
                     const uint8_t *list, size_t list_len,
                     const uint16_t *table, size_t table_len,
                     const uint16_t *path, size_t path_len,
                     uint64_t *cash, size_t cash_len,
                     uint64_t *place);

/* ---- Checks ----------------------------------------------------------------------------------- */

enum { FAILURES_SHOWN = 20 };

static uint64_t checks, failures;
static char situation[1024]; /* the case under way, named in the line of a failure */

__attribute__((format(printf, 1, 2)))
static inline void about(const char *format, ...)
{
    va_list rest;
    va_start(rest, format);
    vsnprintf(situation, sizeof situation, format, rest);
    va_end(rest);
}

/* Counts a check; true where a line is to be printed. */
static inline bool fails(bool condition)
{
    checks++;
    if (condition)
        return false;
    failures++;
    return failures <= FAILURES_SHOWN;
}

static inline void holds(const char *name, bool condition)
{
    if (fails(condition))
        fprintf(stderr, "failed: %s: %s\n", situation, name);
}

static inline void same(const char *name, uint64_t got, uint64_t expected)
{
    if (fails(got == expected))
        fprintf(stderr, "failed: %s: %s: got %" PRIu64 ", expected %" PRIu64 "\n",
                situation, name, got, expected);
}

static inline void same_signed(const char *name, int64_t got, int64_t expected)
{
    if (fails(got == expected))
        fprintf(stderr, "failed: %s: %s: got %" PRId64 ", expected %" PRId64 "\n",
                situation, name, got, expected);
}

/*
 * The random rounds to make: a number, or with `least`, for valgrind, as few as meet every case: one
 * of a kind that has a single case, since the cases before them meet each refusal.
 */
struct rounds {
    uint64_t most;
    bool least, usual;
};

/* By the program's argument; without one the usual number. */
static inline struct rounds rounds_from(int argc, char **argv, uint64_t usual)
{
    if (argc < 2)
        return (struct rounds){usual, false, true};
    if (argc == 2 && strcmp(argv[1], "least") == 0)
        return (struct rounds){1, true, false};
    char *end;
    unsigned long long rounds = strtoull(argv[1], &end, 10);
    if (argc > 2 || argv[1][0] < '0' || argv[1][0] > '9' || *end != '\0') {
        fprintf(stderr, "usage: %s [ROUNDS | least]\n", argv[0]);
        exit(2);
    }
    return (struct rounds){rounds, false, rounds >= usual};
}

/* One in n rounds, of a kind that has so many cases. */
static inline uint64_t one_in_rounds(struct rounds r, uint64_t n, uint64_t cases)
{
    return r.least ? cases : r.most / n;
}

/* Prints the last line; gives the exit status. */
static inline int verdict(const char *name)
{
    printf("host %s: %" PRIu64 " checks, %" PRIu64 " failed\n", name, checks, failures);
    return failures == 0 ? 0 : 1;
}

/* Numbers that calls answer, for counting them; any other counts as 0. */
enum { NUMBERS = GMWB_REFUSED_WANTED + 1 };

static inline void tally(uint64_t *came, uint32_t number)
{
    came[number < NUMBERS ? number : 0]++;
}

/*
 * Random rounds show little where a call always answers the same: each number must have come in
 * them, or, where they are the least, in the whole run.
 */
static inline void all_came(struct rounds r, const uint64_t *in_rounds, const uint64_t *in_all,
                            const uint32_t *numbers, size_t count)
{
    const uint64_t *came = r.least ? in_all : in_rounds;
    for (size_t i = 0; (r.usual || r.least) && i < count; i++) {
        about("random rounds");
        if (fails(came[numbers[i]] > 0))
            fprintf(stderr, "failed: random rounds: number %" PRIu32 " never came\n", numbers[i]);
    }
}

/* ---- Slices to lend --------------------------------------------------------------------------- */

/* Bytes on both sides of a slice that no call may touch; keeps the alignment of the widest entry. */
enum { FENCE = 64 };

struct lent {
    uint8_t *block; /* fence, slice, then `after` bytes of fence */
    size_t bytes, after;
    uint8_t set; /* bits that every byte has set before a call */
};

/*
 * What a block holds before a call: no byte is 0, so that zeros written are seen, also where they
 * are half of an entry. An entry of 64 bits is above 2^32.
 */
static inline uint8_t filling(struct lent s, size_t i)
{
    return (uint8_t)(37 * i + 11) | 1 | s.set;
}

/* Zeros; bytes is at least 1. */
static inline void *allocate(size_t bytes)
{
    void *memory = calloc(bytes, 1);
    if (memory == NULL) {
        fprintf(stderr, "no memory\n");
        exit(2);
    }
    return memory;
}

static inline struct lent fenced(size_t bytes, size_t after, uint8_t set)
{
    struct lent s = {allocate(FENCE + bytes + after), bytes, after, set};
    for (size_t i = 0; i < FENCE + bytes + after; i++)
        s.block[i] = filling(s, i);
    return s;
}

/* A slice that a call may change. */
static inline struct lent lend(size_t entries, size_t width)
{
    return fenced(entries * width, FENCE, 0);
}

/* The same, all ones. */
static inline struct lent lend_ones(size_t entries, size_t width)
{
    return fenced(entries * width, FENCE, 0xFF);
}

/*
 * A slice that a call reads: a copy of what is there, then zeros. Its end is the end of the block,
 * so that valgrind sees a read beyond it; an empty one keeps its fence, to be an object's address.
 */
static inline struct lent lend_copy(const void *from, size_t there, size_t bytes)
{
    struct lent s = fenced(bytes, bytes == 0 ? FENCE : 0, 0);
    size_t copied = there < bytes ? there : bytes;
    if (copied > 0)
        memcpy(s.block + FENCE, from, copied);
    memset(s.block + FENCE + copied, 0, bytes - copied);
    return s;
}

static inline void *start(struct lent s)
{
    return s.block + FENCE;
}

static inline void take_back(struct lent s)
{
    free(s.block);
}

/* The fences, and the slice from its byte `from` on, are as they were lent. */
static inline void untouched_from(const char *name, struct lent s, size_t from)
{
    bool kept = true;
    for (size_t i = 0; i < FENCE + s.bytes + s.after; i++)
        kept = kept && ((i >= FENCE && i < FENCE + from) || s.block[i] == filling(s, i));
    holds(name, kept);
}

static inline void untouched(const char *name, struct lent s)
{
    untouched_from(name, s, 0);
}

/* Two slices of one length hold the same, fences included. */
static inline void same_slice(const char *name, struct lent got, struct lent expected, size_t width)
{
    size_t size = FENCE + got.bytes + got.after;
    if (!fails(memcmp(got.block, expected.block, size) == 0))
        return;
    size_t i = 0;
    while (got.block[i] == expected.block[i])
        i++;
    fprintf(stderr, "failed: %s: %s: entry %ld of %lu differs\n", situation, name,
            (long)(i / width) - (long)(FENCE / width), (unsigned long)(got.bytes / width));
}

/* What a call reports through pointers, with words around that it must not touch. */
struct told {
    uint64_t before, place, between, value, after_value;
    int64_t margin;
    uint64_t after_margin, count, after_count, fee, after;
};

/* Above 2^32 all over, so that half a number written is seen. */
static inline struct told untold(void)
{
    struct told t;
    memset(&t, 0xA5, sizeof t);
    return t;
}

static inline void same_told(struct told got, struct told expected)
{
    same("place against the second program", got.place, expected.place);
    same("value against the second program", got.value, expected.value);
    same_signed("margin against the second program", got.margin, expected.margin);
    same("count against the second program", got.count, expected.count);
    same("fee against the second program", got.fee, expected.fee);
    struct told u = untold();
    holds("only place, value, margin, count and fee written",
          got.before == u.before && got.between == u.between && got.after_value == u.after_value &&
              got.after_margin == u.after_margin && got.after_count == u.after_count &&
              got.after == u.after);
}

/* ---- Random numbers --------------------------------------------------------------------------- */

/* splitmix64, with the same seed on every run. */
static inline uint64_t random64(void)
{
    static uint64_t state = 20240601;
    uint64_t z = (state += UINT64_C(0x9E3779B97F4A7C15));
    z = (z ^ (z >> 30)) * UINT64_C(0xBF58476D1CE4E5B9);
    z = (z ^ (z >> 27)) * UINT64_C(0x94D049BB133111EB);
    return z ^ (z >> 31);
}

/* A number from 0 to most. */
static inline uint64_t upto(uint64_t most)
{
    return random64() % (most + 1);
}

static inline uint64_t between(uint64_t least, uint64_t most)
{
    return least + upto(most - least);
}

static inline bool one_in(uint64_t n)
{
    return upto(n - 1) == 0;
}

/* ---- Records, lists and death rates ----------------------------------------------------------- */

struct terms {
    uint16_t premium, level, top, dates, fee, penalty;
    uint32_t discount;
    uint16_t step, spare;
};

struct fund_return {
    uint16_t factor, weight;
};

static const struct terms P = {10, 5, 20, 2, 0, 1000, 1000000, 0, 0};
static const struct terms Q = {10, 5, 20, 2, 2000, 0, 1000000, 0, 0};
static const struct fund_return P_RETURNS[2] = {{5000, 5000}, {15000, 5000}};

enum { MOST_DATES = 40 };

/*
 * A record, a list and death rates. They are lent with zeros behind them where a length asks for
 * more.
 */
struct input {
    struct terms terms; /* what the record was packed from */
    uint8_t record[GMWB_RECORD_BYTES];
    size_t record_len;
    uint8_t list[GMWB_RETURN_BYTES * (GMWB_MOST_RETURNS + 1)]; /* room for one too many */
    size_t list_len;
    uint8_t rates[GMWB_RATE_BYTES * MOST_DATES];
    size_t rates_len;
};

/* "fields are unsigned, low byte first" */
static inline void put(uint8_t *at, size_t bytes, uint64_t number)
{
    for (size_t i = 0; i < bytes; i++)
        at[i] = (uint8_t)(number >> (8 * i));
}

static inline uint64_t get(const uint8_t *at, size_t bytes)
{
    uint64_t number = 0;
    for (size_t i = bytes; i > 0; i--)
        number = number << 8 | at[i - 1];
    return number;
}

static inline void pack_record(struct input *in, struct terms c)
{
    const uint16_t fields[6] = {c.premium, c.level, c.top, c.dates, c.fee, c.penalty};
    for (size_t i = 0; i < 6; i++)
        put(in->record + 2 * i, 2, fields[i]);
    put(in->record + 12, 4, c.discount);
    put(in->record + 16, 2, c.step);
    put(in->record + 18, 2, c.spare);
    in->record_len = GMWB_RECORD_BYTES;
    in->terms = c;
}

static inline void pack_list(struct input *in, const struct fund_return *returns, size_t count)
{
    for (size_t i = 0; i < count; i++) {
        put(in->list + GMWB_RETURN_BYTES * i, 2, returns[i].factor);
        put(in->list + GMWB_RETURN_BYTES * i + 2, 2, returns[i].weight);
    }
    in->list_len = GMWB_RETURN_BYTES * count;
}

static inline void pack_rates(struct input *in, const uint16_t *rates, size_t count)
{
    for (size_t i = 0; i < count; i++)
        put(in->rates + GMWB_RATE_BYTES * i, GMWB_RATE_BYTES, rates[i]);
    in->rates_len = GMWB_RATE_BYTES * count;
}

/* As many as the terms have dates, whether or not those are accepted. */
static inline void zero_rates(struct input *in)
{
    memset(in->rates, 0, sizeof in->rates);
    in->rates_len = GMWB_RATE_BYTES * (size_t)in->terms.dates;
}

/* With zero rates. */
static inline struct input input_of(struct terms c, const struct fund_return *returns, size_t count)
{
    struct input in;
    memset(&in, 0, sizeof in);
    pack_record(&in, c);
    pack_list(&in, returns, count);
    zero_rates(&in);
    return in;
}

static inline struct input input_p(void)
{
    return input_of(P, P_RETURNS, 2);
}

/* P but for the dates, with a rate for each. */
static inline struct input p_with_rates(uint16_t dates, const uint16_t *rates)
{
    struct terms c = P;
    c.dates = dates;
    struct input in = input_of(c, P_RETURNS, 2);
    pack_rates(&in, rates, dates);
    return in;
}

/* What the record says; one that is accepted may have been damaged since it was packed. */
static inline struct terms terms_in(const struct input *in)
{
    const uint8_t *r = in->record;
    struct terms c = {(uint16_t)get(r, 2), (uint16_t)get(r + 2, 2), (uint16_t)get(r + 4, 2),
                      (uint16_t)get(r + 6, 2), (uint16_t)get(r + 8, 2), (uint16_t)get(r + 10, 2),
                      (uint32_t)get(r + 12, 4), (uint16_t)get(r + 16, 2), (uint16_t)get(r + 18, 2)};
    return c;
}

static inline struct lent lend_record(const struct input *in)
{
    return lend_copy(in->record, sizeof in->record, in->record_len);
}

static inline struct lent lend_list(const struct input *in)
{
    return lend_copy(in->list, sizeof in->list, in->list_len);
}

static inline struct lent lend_rates(const struct input *in)
{
    return lend_copy(in->rates, sizeof in->rates, in->rates_len);
}

#endif
