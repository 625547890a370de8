/*
 * gmwb_fee: the figures of request (vi), wanted values at, below and above what fees give, the same
 * returns in another list, every refusal on both sides of its boundary, the order of the checks,
 * working slices of every length that matters, and random contracts. Each call is made on both programs; the fee found and the one
 * before it are valued by gmwb_value. The second program tries fee after fee, so that contracts are
 * small.
 */
#include "valuing.h"

enum { MOST_FEE = 10000, USUAL_ROUNDS = 2000 };

/* ---- The call --------------------------------------------------------------------------------- */

/* gmwb_fee or second_fee */
typedef __typeof__(gmwb_fee) fee_call;

/* No fee that is tried is written into the record. */
static uint32_t made(fee_call *call, const struct valuing *v, uint64_t wanted, struct told *t,
                     struct lent work)
{
    struct lent record = lend_record(&v->in), list = lend_list(&v->in), rates = lend_rates(&v->in);
    struct lent kept = lend_record(&v->in);
    uint32_t number = call(start(record), v->in.record_len, start(list), v->in.list_len,
                           start(rates), v->in.rates_len, v->behaviour, wanted, start(work),
                           v->work_len, &t->place, &t->fee, &t->value, &t->margin);
    same_slice("record after the call", record, kept, 1);
    take_back(kept);
    take_back(record);
    take_back(list);
    take_back(rates);
    return number;
}

/* What gmwb_value gives for an accepted contract at a fee. */
static uint64_t value_at(const struct valuing *v, uint64_t fee)
{
    struct input in = v->in;
    struct terms c = terms_in(&in);
    c.fee = (uint16_t)fee;
    pack_record(&in, c);
    struct valuing at = exact(in, v->behaviour);
    struct left l = lend_both(&at);
    struct told t = untold();
    same("number at a fee", value_by(gmwb_value, &at, &t, l), GMWB_SUCCESS);
    take_back_left(l);
    return t.value;
}

/* "After the search, found or not, the needed working entries are zero" */
static void cleared(struct terms c, struct lent work)
{
    const uint64_t *entries = start(work);
    uint64_t rest = 0;
    for (size_t i = 0; i < work_of(c); i++)
        rest |= entries[i];
    same("working entries after the search", rest, 0);
    untouched_from("working slice beyond two layers", work, work_of(c) * sizeof(uint64_t));
}

/* "the smallest fee from 0 to 10,000 whose value does not exceed it, with that value" */
static void found(const struct valuing *v, uint64_t wanted, struct told t)
{
    same("place after success", t.place, 0);
    holds("a fee up to 10,000", t.fee <= MOST_FEE);
    same("value at the fee found", t.value, value_at(v, t.fee));
    holds("value at most wanted", t.value <= wanted);
    same_signed("margin", t.margin,
                (int64_t)t.value - 10000 * (int64_t)terms_in(&v->in).premium);
    if (t.fee > 0)
        holds("the fee before gives more", value_at(v, t.fee - 1) > wanted);
}

/* What a call tells and leaves. 19 is "the one refusal that changes a working slice". */
static void after_call(const struct valuing *v, uint64_t wanted, uint32_t number, struct told t,
                       struct lent work)
{
    if (number == GMWB_SUCCESS || number == GMWB_REFUSED_WANTED)
        cleared(terms_in(&v->in), work);
    else
        untouched("working slice after a refusal", work);
    if (number == GMWB_SUCCESS) {
        found(v, wanted, t);
        return;
    }
    same("fee after a refusal", t.fee, 0);
    same("value after a refusal", t.value, 0);
    same_signed("margin after a refusal", t.margin, 0);
    if (number == GMWB_REFUSED_WANTED)
        holds("the largest fee gives more", value_at(v, MOST_FEE) > wanted);
}

/* Makes the call on both programs. Gives the number; told is the engine's. */
static uint32_t search(const struct valuing *v, uint64_t wanted, struct told *told)
{
    struct lent l = lend(v->work_len, sizeof(uint64_t)), m = lend(v->work_len, sizeof(uint64_t));
    struct told t = untold(), s = untold();
    size_t end = strlen(situation);
    snprintf(situation + end, sizeof situation - end, ", wanted %" PRIu64, wanted);
    uint32_t number = made(gmwb_fee, v, wanted, &t, l);
    uint32_t expected = made(second_fee, v, wanted, &s, m);
    tally(met, number);
    same("number against the second program", number, expected);
    same_told(t, s);
    same_slice("working slice against the second program", l, m, sizeof(uint64_t));
    if (number == expected)
        after_call(v, wanted, number, t, l);
    situation[end] = '\0';
    take_back(l);
    take_back(m);
    *told = t;
    return number;
}

/*
 * The call of the shared tests: fee 0 meets the largest number wanted, and what is refused then is
 * refused whatever is wanted.
 */
static uint32_t value(const struct valuing *v, struct told *told, struct left *left)
{
    struct told t;
    uint32_t number = search(v, UINT64_MAX, told);
    if (number == 0)
        same("fee where all is wanted", told->fee, 0);
    else
        same("number with nothing wanted", search(v, 0, &t), number);
    *left = lend_both(v); /* to be taken back */
    return number;
}

static void searched(const struct valuing *v, uint64_t wanted, uint32_t number)
{
    struct told t;
    same("number", search(v, wanted, &t), number);
    same("place", t.place, 0);
}

/* ---- Figures ---------------------------------------------------------------------------------- */

/* Of P with zero rates. */
static const struct {
    uint64_t behaviour, wanted;
    uint32_t number;
    uint64_t fee, value;
} FIGURES[] = {
    {GMWB_STATIC, 99999, GMWB_REFUSED_WANTED, 0, 0},
    {GMWB_STATIC, 100000, 0, 2667, 100000},
    {GMWB_STATIC, 110000, 0, 1334, 110000},
    {GMWB_STATIC, 124999, 0, 1, 120000},
    {GMWB_STATIC, 125000, 0, 0, 125000},
    {GMWB_DYNAMIC, 99999, GMWB_REFUSED_WANTED, 0, 0},
    {GMWB_DYNAMIC, 110000, 0, 1667, 110000},
    {GMWB_DYNAMIC, 124999, 0, 477, 122500},
    {GMWB_DYNAMIC, 125000, 0, 1, 125000},
    {GMWB_DYNAMIC, 130000, 0, 0, 130000},
};

/* "The record's own fee is range-checked and otherwise unused." */
static void figures(void)
{
    static const uint16_t own[] = {0, 1, 1334, 9999, 10000};
    struct told t;
    for (size_t i = 0; i < COUNT(FIGURES); i++) {
        for (size_t k = 0; k < COUNT(own); k++) {
            struct terms c = P;
            c.fee = own[k];
            struct valuing v = exact(input_of(c, P_RETURNS, 2), FIGURES[i].behaviour);
            about("P with fee %u, behaviour %" PRIu64, (unsigned)own[k], v.behaviour);
            same("number", search(&v, FIGURES[i].wanted, &t), FIGURES[i].number);
            same("fee", t.fee, FIGURES[i].fee);
            same("value", t.value, FIGURES[i].value);
        }
    }
}

/* With 32 bits some would be below what every fee gives, with a sign those from 2^63 on. */
static void ends_of_wanted(void)
{
    const uint64_t narrow = UINT64_C(1) << 32, half = UINT64_C(1) << 63;
    const uint64_t unmet[] = {0, 1, 65536, 99999};
    const uint64_t met[] = {65536 + UINT64_C(99999), narrow - 1, narrow, narrow + 99999, half - 1,
                            half, half + 110000, UINT64_MAX - 1, UINT64_MAX};
    for (uint64_t behaviour = 0; behaviour <= 2; behaviour++) {
        struct valuing v = exact(input_p(), behaviour);
        struct told t;
        about("P, behaviour %" PRIu64, behaviour);
        for (size_t i = 0; i < COUNT(unmet); i++)
            searched(&v, unmet[i], GMWB_REFUSED_WANTED);
        for (size_t i = 0; i < COUNT(met); i++) {
            same("number", search(&v, met[i], &t), GMWB_SUCCESS);
            same("fee", t.fee, 0);
        }
    }
}

/* Wanted: what a fee gives, one less and one more. */
static void around(const struct valuing *v, uint64_t fee)
{
    uint64_t value = value_at(v, fee);
    struct told t;
    same("number", search(v, value, &t), GMWB_SUCCESS);
    same("value", t.value, value);
    holds("no larger fee", t.fee <= fee);
    same("number", search(v, value + 1, &t), GMWB_SUCCESS);
    uint32_t number = value > 0 ? search(v, value - 1, &t) : 0;
    holds("a larger fee or none for less", value == 0 || number == GMWB_REFUSED_WANTED ||
                                               (number == GMWB_SUCCESS && t.fee > fee));
}

/* N 1; death rates; a rate that falls; returns that lift above top; two units left that count. */
static void around_values(void)
{
    static const uint64_t fees[] = {0, 1, 477, 1667, 2666, 5000, 9333, 9999, 10000};
    static const struct {
        struct terms terms;
        struct fund_return returns[2];
        uint16_t rates[4];
    } kinds[] = {
        {{10, 5, 20, 2, 0, 1000, 1000000, 0, 0}, {{5000, 5000}, {15000, 5000}}, {0, 0}},
        {{10, 5, 20, 1, 0, 1000, 1000000, 0, 0}, {{5000, 5000}, {15000, 5000}}, {700}},
        {{10, 5, 12, 3, 150, 1000, 950000, 0, 0}, {{9000, 4000}, {13000, 6000}}, {100, 200, 300}},
        {{6, 2, 9, 4, 0, 1000, 990000, 300, 0}, {{8000, 1}, {11000, 9999}}, {0, 1, 9999, 10000}},
        {{8, 3, 8, 3, 10000, 500, 1000000, 0, 0}, {{10000, 5000}, {30000, 5000}}, {0, 0, 0}},
        {{10, 1, 10, 2, 0, 1000, 20000, 0, 0}, {{30000, 5000}, {30000, 5000}}, {0, 0}},
    };
    for (size_t i = 0; i < COUNT(kinds); i++) {
        struct input in = input_of(kinds[i].terms, kinds[i].returns, 2);
        pack_rates(&in, kinds[i].rates, in.terms.dates);
        for (size_t k = 0; k < COUNT(fees); k++) {
            struct valuing v = exact(in, k % 3);
            about("contract %lu, behaviour %" PRIu64 ", around fee %" PRIu64, (unsigned long)i,
                  v.behaviour, fees[k]);
            around(&v, fees[k]);
        }
    }
}

/*
 * The highest fee that is ever found. A return that triples leads from 3,334 to 2 at fee 9,998 and
 * to 1 at 9,999; where later payments count for little, 2 are surrendered, beside a level of 1. The
 * second program would take long, so that the engine is called alone.
 */
static void highest_fee(void)
{
    const struct terms c = {3334, 1, 3334, 2, 0, 0, 250, 0, 0};
    const struct fund_return triple[1] = {{30000, 10000}};
    const struct valuing v = exact(input_of(c, triple, 1), GMWB_MIXED);
    for (uint64_t wanted = 3; wanted <= 5; wanted++) {
        struct lent work = lend(v.work_len, sizeof(uint64_t));
        struct told t = untold();
        about("highest fee, wanted %" PRIu64, wanted);
        uint32_t number = made(gmwb_fee, &v, wanted, &t, work);
        same("number", number, wanted == 3 ? GMWB_REFUSED_WANTED : GMWB_SUCCESS);
        same("fee", t.fee, wanted == 3 ? 0 : wanted == 4 ? 9999 : 9998);
        after_call(&v, wanted, number, t, work);
        take_back(work);
    }
}

/* ---- The same returns in another list --------------------------------------------------------- */

/* P's figures, its returns in parts. */
static void figures_by_parts(void)
{
    for (size_t i = 0; i < COUNT(FIGURES); i++) {
        struct input in = p_in_parts(2 + i);
        for (enum order order = RISING; order < ORDERS; order++) {
            struct valuing v = exact(other_list(&in, order), FIGURES[i].behaviour);
            struct told t;
            about("P's returns in %lu parts, order %d", (unsigned long)(2 + i), (int)order);
            same("number", search(&v, FIGURES[i].wanted, &t), FIGURES[i].number);
            same("fee", t.fee, FIGURES[i].fee);
            same("value", t.value, FIGURES[i].value);
        }
    }
}

static void in_lists(uint64_t round)
{
    struct input in = alike_input(random_terms(6, 6, 3), (size_t)between(2, 6));
    struct input other = other_list(&in, (enum order)(round % ORDERS));
    for (uint64_t behaviour = 0; behaviour <= 2; behaviour++) {
        struct valuing v = exact(in, behaviour), w = exact(other, behaviour);
        uint64_t wanted = value_at(&v, upto(200));
        struct told t, s;
        about_call("in lists, round", round, &w);
        same("number of the other list", search(&w, wanted, &s), search(&v, wanted, &t));
        same("fee of the other list", s.fee, t.fee);
        same("value of the other list", s.value, t.value);
    }
}

/* ---- Refusals --------------------------------------------------------------------------------- */

/* The longest would be too short in 16 bits. */
static void work_lengths(void)
{
    struct valuing v = exact(input_p(), GMWB_MIXED);
    size_t needed = v.work_len;
    const size_t lengths[] = {0, 1, needed / 2, needed - 1, needed, needed + 1, 65536};
    for (size_t i = 0; i < COUNT(lengths); i++) {
        v.work_len = lengths[i];
        bool is_short = lengths[i] < needed;
        about("working slice of %lu", (unsigned long)lengths[i]);
        searched(&v, 99999, is_short ? GMWB_REFUSED_SLICE : GMWB_REFUSED_WANTED);
        searched(&v, 100000, is_short ? GMWB_REFUSED_SLICE : GMWB_SUCCESS);
        searched(&v, UINT64_MAX, is_short ? GMWB_REFUSED_SLICE : GMWB_SUCCESS);
    }
}

/* "19 .. found last" */
static void last_check(void)
{
    struct valuing v = {input_p(), 3, 0, 0};
    v.in.rates_len++;
    about("death rates, behaviour and working slice wrong, no fee");
    searched(&v, 99999, GMWB_REFUSED_RATES_LENGTH);
    v.in.rates_len--;
    about("behaviour and working slice wrong, no fee");
    searched(&v, 99999, GMWB_REFUSED_BEHAVIOUR);
    v.behaviour = GMWB_STATIC;
    about("working slice wrong, no fee");
    searched(&v, 99999, GMWB_REFUSED_SLICE);
    v.work_len = work_of(P);
    about("no fee");
    searched(&v, 99999, GMWB_REFUSED_WANTED);
}

/* A slice without entries may be NULL; none of the four is ever accepted so. */
static void no_slices(void)
{
    static const uint32_t numbers[] = {GMWB_REFUSED_RECORD_LENGTH, GMWB_REFUSED_LIST_LENGTH,
                                       GMWB_REFUSED_RATES_LENGTH, GMWB_REFUSED_SLICE};
    for (size_t i = 0; i < COUNT(numbers); i++) {
        struct input in = input_p();
        struct lent work = lend(work_of(P), sizeof(uint64_t));
        struct told t = untold();
        about("no %s", (const char *[]){"record", "list", "rates", "working slice"}[i]);
        same("number", gmwb_fee(i == 0 ? NULL : in.record, i == 0 ? 0 : in.record_len,
                                i == 1 ? NULL : in.list, i == 1 ? 0 : in.list_len,
                                i == 2 ? NULL : in.rates, i == 2 ? 0 : in.rates_len, GMWB_STATIC,
                                UINT64_MAX, i == 3 ? NULL : start(work), i == 3 ? 0 : work_of(P),
                                &t.place, &t.fee, &t.value, &t.margin),
             numbers[i]);
        same("place", t.place, 0);
        same("fee", t.fee, 0);
        same("value", t.value, 0);
        same_signed("margin", t.margin, 0);
        untouched("working slice after a refusal", work);
        take_back(work);
    }
}

/* ---- Random rounds ---------------------------------------------------------------------------- */

/* Around what some fee gives, or any value up to twice the premium; now and then an end. */
static uint64_t random_wanted(const struct valuing *v)
{
    if (one_in(8))
        return one_in(2) ? 0 : UINT64_MAX;
    if (one_in(4))
        return upto(20000 * (uint64_t)v->in.terms.premium);
    uint64_t value = value_at(v, one_in(4) ? 0 : upto(one_in(2) ? 500 : MOST_FEE));
    return value + upto(2) - (value > 0 ? 1 : 0);
}

static void random_search(uint64_t round, uint64_t *came)
{
    struct valuing v = exact(random_input(random_terms(8, 8, 4), (size_t)between(1, 4)), 0);
    struct valuing given = v;
    given.work_len = random_length(v.work_len);
    damage_some(&given.in);
    bool other = one_in(16);
    for (uint64_t behaviour = 0; behaviour <= (other ? 3 : 2); behaviour++) {
        struct told t;
        v.behaviour = behaviour;
        given.behaviour = behaviour;
        about_call("round", round, &given);
        tally(came, search(&given, behaviour > 2 ? 0 : random_wanted(&v), &t));
    }
}

int main(int argc, char **argv)
{
    struct rounds rounds = rounds_from(argc, argv, USUAL_ROUNDS);
    figures();
    ends_of_wanted();
    around_values();
    if (rounds.usual)
        highest_fee();
    figures_by_parts();
    for (uint64_t round = 0; round < one_in_rounds(rounds, 20, ORDERS); round++)
        in_lists(round);
    work_lengths();
    last_check();
    no_slices();
    shared_refusals();
    uint64_t came[NUMBERS] = {0};
    static const uint32_t numbers[] = {0, 1, 2, 3, 4, 5, 6, 7, 8, 9, 10, 11, 15, 17, 18, 19};
    for (uint64_t round = 0; round < one_in_rounds(rounds, 4, 1); round++)
        random_search(round, came);
    all_came(rounds, came, met, numbers, COUNT(numbers));
    return verdict("fee");
}
