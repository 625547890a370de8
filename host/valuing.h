/*
 * The tests that gmwb_value and gmwb_value_map share: every refusal on both sides of its boundary,
 * the order of the checks, and random contracts; gmwb_value_no_table shares all but the slices,
 * gmwb_fee the refusals. The test that includes this file makes the call.
 */
#ifndef HOST_VALUING_H
#define HOST_VALUING_H

#include "contracts.h"

/* ---- The call --------------------------------------------------------------------------------- */

/* Slices are lent with these numbers of entries. */
struct valuing {
    struct input in;
    uint64_t behaviour;
    size_t work_len, table_len;
};

/* The slices after a call, to be taken back. */
struct left {
    struct lent work, table;
};

/* What the calls of this run answered. */
static uint64_t met[NUMBERS];

/* Makes the call on both programs. Gives the number; told and left are the engine's. */
static uint32_t value(const struct valuing *v, struct told *told, struct left *left);

static inline struct valuing exact(struct input in, uint64_t behaviour)
{
    struct valuing v = {in, behaviour, work_of(in.terms), table_of(in.terms)};
    return v;
}

static inline struct left lend_both(const struct valuing *v)
{
    struct left l = {lend(v->work_len, sizeof(uint64_t)), lend(v->table_len, sizeof(uint16_t))};
    return l;
}

/* gmwb_value or second_value */
typedef __typeof__(gmwb_value) value_call;

static inline uint32_t value_by(value_call *call, const struct valuing *v, struct told *t,
                                struct left l)
{
    struct lent record = lend_record(&v->in), list = lend_list(&v->in), rates = lend_rates(&v->in);
    uint32_t number = call(start(record), v->in.record_len, start(list), v->in.list_len,
                           start(rates), v->in.rates_len, v->behaviour, start(l.work), v->work_len,
                           start(l.table), v->table_len, &t->place, &t->value, &t->margin);
    take_back(record);
    take_back(list);
    take_back(rates);
    return number;
}

static inline void take_back_left(struct left l)
{
    take_back(l.work);
    take_back(l.table);
}

static inline void same_left(struct left got, struct left expected)
{
    same_slice("working slice of the two calls", got.work, expected.work, sizeof(uint64_t));
    same_slice("table of the two calls", got.table, expected.table, sizeof(uint16_t));
}

static inline void after_refusal(struct told t, struct left l)
{
    same("value after a refusal", t.value, 0);
    same_signed("margin after a refusal", t.margin, 0);
    untouched("working slice after a refusal", l.work);
    untouched("table after a refusal", l.table);
}

/*
 * Maturity pays at most 10,000 x top, a decision with the return behind it, or the first return, at
 * most twice that.
 */
static inline void after_success(struct terms c, struct told t, struct left l)
{
    size_t layer = layer_of(c);
    const uint64_t *work = start(l.work);
    uint64_t rest = 0, most = 0;
    for (size_t i = 0; i < layer; i++)
        most = larger(most, work[i]);
    for (size_t i = layer; i < 2 * layer; i++)
        rest |= work[i];
    holds("largest value of a state", most <= tops(c, 2 * (uint64_t)c.dates - 1));
    holds("largest value of a contract", t.value <= tops(c, 2 * (uint64_t)c.dates + 1));
    same("place after success", t.place, 0);
    same_signed("margin", t.margin, (int64_t)t.value - 10000 * (int64_t)c.premium);
    same("second layer zeros", rest, 0);
    untouched_from("working slice beyond two layers", l.work, work_of(c) * sizeof(uint64_t));
    untouched_from("table beyond its layers", l.table, table_of(c) * sizeof(uint16_t));
}

static inline void answered(const struct valuing *v, uint32_t number, uint64_t place)
{
    struct told t;
    struct left l;
    same("number", value(v, &t, &l), number);
    same("place", t.place, place);
    take_back_left(l);
}

/* ---- Refusals --------------------------------------------------------------------------------- */

/* Slices for a record that is refused are those of P: they are not sized by what is wrong. */
static inline void input_answered(const struct input *in, uint32_t number, uint64_t place)
{
    struct input sizes = number == 0 ? *in : input_p();
    struct valuing v = exact(sizes, GMWB_STATIC);
    v.in = *in;
    answered(&v, number, place);
}

/* Here all else about the call is wrong too. */
static inline void ordered_case(const struct input *in, uint32_t number, uint64_t place)
{
    struct valuing v = {*in, 3, 0, 0};
    answered(&v, number, place);
}

/* The rates' own come first: rates_faults_in_order. */
static inline void later_checks_in_order(void)
{
    struct valuing v = {input_p(), 3, 0, 0};
    about("behaviour and slices wrong");
    answered(&v, GMWB_REFUSED_BEHAVIOUR, 0);
    about("slices wrong");
    v.behaviour = GMWB_DYNAMIC;
    answered(&v, GMWB_REFUSED_SLICE, 0);
}

static inline void behaviours(void)
{
    /* Those after the first would be 0 to 2 in 8, 16 or 32 bits. */
    static const uint64_t none[] = {3, 256, 257, 65537, 65538, UINT64_C(4294967296),
                                    UINT64_C(4294967298), UINT64_C(1) << 63, UINT64_MAX};
    for (size_t i = 0; i < COUNT(none); i++) {
        struct valuing v = exact(input_p(), none[i]);
        about("behaviour %" PRIu64, none[i]);
        answered(&v, GMWB_REFUSED_BEHAVIOUR, 0);
    }
}

static inline void slice_lengths(void)
{
    const struct terms c = {10, 5, 20, 4, 0, 1000, 1000000, 0, 0};
    struct valuing v = exact(input_of(c, P_RETURNS, 2), GMWB_DYNAMIC);
    size_t work = v.work_len, table = v.table_len;
    /* The longest would be too short in 16 bits. */
    const size_t works[] = {0, work / 2, work - 1, work, work + 1, 65536};
    const size_t tables[] = {0, table / 3, table - 1, table, table + 1, 65536};
    for (size_t i = 0; i < COUNT(works); i++) {
        for (size_t k = 0; k < COUNT(tables); k++) {
            v.work_len = works[i];
            v.table_len = tables[k];
            about("working slice of %lu, table of %lu", (unsigned long)works[i],
                  (unsigned long)tables[k]);
            bool is_short = works[i] < work || tables[k] < table;
            answered(&v, is_short ? GMWB_REFUSED_SLICE : GMWB_SUCCESS, 0);
        }
    }
}

/* ---- Random rounds ---------------------------------------------------------------------------- */

static inline size_t random_length(size_t needed)
{
    if (one_in(16))
        return needed == 0 ? 0 : (size_t)upto(needed - 1);
    return one_in(16) && needed > 0 ? needed - 1 : needed + (size_t)(one_in(2) ? 0 : upto(9));
}

static inline void about_call(const char *name, uint64_t round, const struct valuing *v)
{
    char record[HEX_ROOM], list[HEX_ROOM], rates[HEX_ROOM];
    about("%s %" PRIu64 ", behaviour %" PRIu64 ": record %s of %lu bytes, list %s of %lu, "
          "rates %s of %lu, working slice of %lu, table of %lu",
          name, round, v->behaviour, hex(record, v->in.record, sizeof v->in.record),
          (unsigned long)v->in.record_len, hex(list, v->in.list, v->in.list_len),
          (unsigned long)v->in.list_len, hex(rates, v->in.rates, v->in.rates_len),
          (unsigned long)v->in.rates_len, (unsigned long)v->work_len, (unsigned long)v->table_len);
}

/* Under each behaviour; the value never falls from one to the next. */
static inline void all_behaviours(const char *name, uint64_t round, struct valuing v,
                                  uint64_t *came)
{
    uint64_t before = 0;
    bool other = one_in(16);
    for (v.behaviour = 0; v.behaviour <= (other ? 3 : 2); v.behaviour++) {
        about_call(name, round, &v);
        struct told t;
        struct left l;
        uint32_t number = value(&v, &t, &l);
        take_back_left(l);
        tally(came, number);
        if (number == 0)
            holds("value no lower than under the behaviour before", t.value >= before);
        before = t.value;
    }
}

static inline void random_round(uint64_t round, uint64_t *came)
{
    struct terms c = random_terms(30, 30, 6);
    struct valuing v = exact(random_input(c, (size_t)between(1, 8)), 0);
    v.work_len = random_length(v.work_len);
    v.table_len = random_length(v.table_len);
    damage_some(&v.in);
    all_behaviours("round", round, v, came);
}

static inline void larger_contract(uint64_t round, uint64_t *came)
{
    struct terms c = random_terms(120, 60, 8);
    c.top = 120;
    c.premium = 60;
    c.dates = 8;
    all_behaviours("larger contract", round, exact(random_input(c, 16), 0), came);
}

/* ---- All of it -------------------------------------------------------------------------------- */

/* All but those of slices that are short. */
static inline void shared_refusals(void)
{
    each_record(input_answered);
    each_list(input_answered);
    each_rates_length(input_answered);
    each_rate(input_answered);
    record_faults_in_order(ordered_case);
    list_faults_in_order(ordered_case);
    rates_faults_in_order(ordered_case);
    later_checks_in_order();
    behaviours();
}

static inline void shared_rounds(struct rounds rounds)
{
    uint64_t came[NUMBERS] = {0};
    static const uint32_t numbers[] = {0, 1, 2, 3, 4, 5, 6, 7, 8, 9, 10, 11, 15, 17, 18};
    for (uint64_t round = 0; round < one_in_rounds(rounds, 1, 1); round++)
        random_round(round, came);
    for (uint64_t round = 0; round < one_in_rounds(rounds, 500, 1); round++)
        larger_contract(round, came);
    all_came(rounds, came, met, numbers, COUNT(numbers));
}

static inline void shared_tests(struct rounds rounds)
{
    shared_refusals();
    slice_lengths();
    shared_rounds(rounds);
}

#endif
