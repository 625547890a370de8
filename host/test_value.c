/*
 * gmwb_value: the marked cases, penalty rates that fall, returns that lift an account above top,
 * death rates, the same returns in another list, every refusal on both sides of its boundary, the
 * order of the checks, what is left in the slices, and random contracts against the second program.
 */
#include "valuing.h"

/* ---- The call --------------------------------------------------------------------------------- */

static uint32_t value(const struct valuing *v, struct told *told, struct left *left)
{
    struct left l = lend_both(v), m = lend_both(v);
    struct told t = untold(), s = untold();
    uint32_t number = value_by(gmwb_value, v, &t, l);
    uint32_t expected = value_by(second_value, v, &s, m);
    tally(met, number);
    same("number against the second program", number, expected);
    same_told(t, s);
    same_left(l, m);
    if (number != 0)
        after_refusal(t, l);
    else if (expected == 0)
        after_success(terms_in(&v->in), t, l);
    take_back_left(m);
    *told = t;
    *left = l;
    return number;
}

/* ---- Marked cases ----------------------------------------------------------------------------- */

static void valued_with(struct input in, uint64_t behaviour, uint64_t expected, int64_t margin)
{
    struct valuing v = exact(in, behaviour);
    struct told t;
    struct left l;
    same("number", value(&v, &t, &l), GMWB_SUCCESS);
    same("value", t.value, expected);
    same_signed("margin", t.margin, margin);
    take_back_left(l);
}

static void valued(struct terms c, uint64_t behaviour, uint64_t expected, int64_t margin)
{
    valued_with(input_of(c, P_RETURNS, 2), behaviour, expected, margin);
}

static void marked_values(void)
{
    about("case 1");
    valued(P, GMWB_STATIC, 125000, 25000);
    valued(P, GMWB_MIXED, 125000, 25000);
    valued(P, GMWB_DYNAMIC, 130000, 30000);
    about("case 4");
    const struct terms one_date = {10, 5, 20, 1, 0, 1000, 1000000, 0, 0};
    for (uint64_t behaviour = 0; behaviour <= 2; behaviour++)
        valued(one_date, behaviour, 125000, 25000);
    about("case 5");
    const struct terms discounted = {10, 5, 20, 2, 0, 1000, 950000, 0, 0};
    valued(discounted, GMWB_STATIC, 115187, 15187);
    about("case 6");
    valued(Q, GMWB_STATIC, 107500, 7500);
    valued(Q, GMWB_MIXED, 110000, 10000);
    valued(Q, GMWB_DYNAMIC, 110000, 10000);
    about("margin below 0");
    const struct terms lost = {10, 5, 20, 2, 0, 1000, 1, 0, 0};
    valued(lost, GMWB_STATIC, 0, -100000);
}

/*
 * "Bookings, tables and values follow it. A step of zero gives the old figures." Static pays no
 * penalty, nor does dynamic without a fee, which draws nothing above m; with one decision date no
 * rate has fallen yet.
 */
static void falling_rates(void)
{
    static const uint16_t fees[6] = {0, 0, 0, 1000, 1000, 1000};
    static const uint16_t steps[6] = {0, 100, 1000, 0, 100, 1000};
    static const uint64_t values[6][3] = {
        {123750, 123750, 139375}, {123750, 123875, 139375}, {123750, 125000, 139375},
        {107500, 111250, 114750}, {107500, 111375, 115025}, {107500, 112500, 117500},
    };
    for (size_t i = 0; i < 6; i++) {
        const struct terms c = {10, 5, 20, 4, fees[i], 1000, 1000000, steps[i], 0};
        about("P with N 4, fee %u, step %u", (unsigned)fees[i], (unsigned)steps[i]);
        for (uint64_t behaviour = 0; behaviour <= 2; behaviour++)
            valued(c, behaviour, values[i][behaviour], (int64_t)values[i][behaviour] - 100000);
    }
    const struct terms one_decision = {10, 5, 20, 2, 0, 1000, 1000000, 10000, 0};
    about("P, step 10,000");
    valued(one_decision, GMWB_MIXED, 125000, 25000);
    valued(one_decision, GMWB_DYNAMIC, 130000, 30000);
}

/* The rate is at zero on the last date, before it or never; 8 x 8,192 is 0 in 16 bits. */
static void rates_at_zero(void)
{
    static const uint16_t steps[] = {1, 263, 264, 8192, 10000};
    for (size_t i = 0; i < COUNT(steps); i++) {
        const struct terms c = {10, 5, 20, 40, 0, 10000, 1000000, steps[i], 0};
        about("P with N 40, rate 10,000, step %u", (unsigned)steps[i]);
        for (uint64_t behaviour = 0; behaviour <= 2; behaviour++) {
            struct valuing v = exact(input_of(c, P_RETURNS, 2), behaviour);
            answered(&v, GMWB_SUCCESS, 0);
        }
    }
}

/* Value and recorded amount of a state of date 1. */
static void state_with(struct input in, uint64_t behaviour, size_t account, size_t guarantee,
                       uint64_t expected, uint16_t amount)
{
    struct valuing v = exact(in, behaviour);
    struct told t;
    struct left l;
    same("number", value(&v, &t, &l), GMWB_SUCCESS);
    size_t entry = entry_of(in.terms, account, guarantee);
    same("value of the state", ((uint64_t *)start(l.work))[entry], expected);
    same("recorded amount", ((uint16_t *)start(l.table))[entry], amount);
    take_back_left(l);
}

static void state(struct terms c, uint64_t behaviour, size_t account, size_t guarantee,
                  uint64_t expected, uint16_t amount)
{
    state_with(input_of(c, P_RETURNS, 2), behaviour, account, guarantee, expected, amount);
}

static void marked_states(void)
{
    about("case 2");
    state(P, GMWB_DYNAMIC, 15, 10, 160000, 0);
    about("case 3");
    state(P, GMWB_MIXED, 5, 10, 100000, 5);
    state(P, GMWB_DYNAMIC, 5, 10, 100000, 0);
    /*
     * At (12, 10) surrender pays 120,000. Nothing drawn leaves 4 or 14 beside guarantee 10, worth
     * 120,000 as well.
     */
    about("case 7");
    state(Q, GMWB_MIXED, 12, 10, 120000, 12);
    state(Q, GMWB_DYNAMIC, 12, 10, 120000, 0);
}

/* For N = 1 the first layer holds maturity values, and no table is needed. */
static void maturity_layer(void)
{
    const struct terms c = {10, 5, 20, 1, 0, 1000, 1000000, 0, 0};
    struct valuing v = exact(input_of(c, P_RETURNS, 2), GMWB_DYNAMIC);
    struct told t;
    struct left l;
    about("maturity values");
    same("table entries needed", v.table_len, 0);
    same("number", value(&v, &t, &l), GMWB_SUCCESS);
    const uint64_t *work = start(l.work);
    for (size_t w = 0; w <= c.top; w++)
        for (size_t a = 0; a <= c.premium; a++)
            same("maturity value", work[entry_of(c, w, a)], 10000 * larger(w, a));
    take_back_left(l);
}

/* ---- Returns that lift an account above top --------------------------------------------------- */

/* P with N 1 to 4, then under tops of 12 and 10, where its second return lifts 10 to 15. */
static void payout_values(void)
{
    static const uint16_t tops_dates[][2] = {{20, 1}, {20, 2}, {20, 3}, {20, 4}, {12, 1}, {12, 2},
                                             {12, 3}, {10, 1}, {10, 2}};
    static const uint64_t values[][3] = {
        {125000, 125000, 125000}, {125000, 125000, 130000}, {125000, 125000, 131250},
        {123750, 123750, 139375}, {125000, 125000, 125000}, {127500, 127500, 135000},
        {126250, 126250, 140000}, {125000, 125000, 125000}, {130000, 130000, 137500},
    };
    for (size_t i = 0; i < COUNT(values); i++) {
        struct terms c = P;
        c.top = tops_dates[i][0];
        c.dates = tops_dates[i][1];
        about("P under top %u with N %u", (unsigned)c.top, (unsigned)c.dates);
        for (uint64_t behaviour = 0; behaviour <= 2; behaviour++)
            valued(c, behaviour, values[i][behaviour], (int64_t)values[i][behaviour] - 100000);
    }
}

/* Premium 10, one date and one return: the value is 10,000 x what 10 are lifted to. */
static void lifted_to(uint16_t top, uint16_t fee, uint16_t factor, uint64_t value)
{
    const struct terms c = {10, 5, top, 1, fee, 1000, 1000000, 0, 0};
    const struct fund_return single[1] = {{factor, 10000}};
    about("10 under top %u, fee %u, factor %u", (unsigned)top, (unsigned)fee, (unsigned)factor);
    for (uint64_t behaviour = 0; behaviour <= 2; behaviour++)
        valued_with(input_of(c, single, 1), behaviour, value, (int64_t)value - 100000);
}

/* To just below top, to top, to one above it and further. */
static void excess_on_first_return(void)
{
    lifted_to(12, 0, 11999, 110000);
    lifted_to(12, 0, 12000, 120000);
    lifted_to(12, 0, 12999, 120000);
    lifted_to(12, 0, 13000, 130000);
    lifted_to(12, 0, 30000, 300000);
    lifted_to(10, 0, 11000, 110000);
    lifted_to(10, 0, 30000, 300000);
}

/* 10 come to 12.5 before the fee; what is left above top after it is whole units or nothing. */
static void fee_down_to_top(void)
{
    lifted_to(10, 0, 12500, 120000);
    lifted_to(10, 400, 12500, 120000);
    lifted_to(10, 401, 12500, 110000);
    lifted_to(10, 1200, 12500, 110000);
    lifted_to(10, 1201, 12500, 100000);
    lifted_to(10, 2000, 12500, 100000);
    lifted_to(10, 10000, 12500, 100000);
}

/* A premium at top that triples each time: 2 x N + 1 times its top, and no value is larger. */
static void most_a_value_can_be(void)
{
    static const uint16_t tops_dates[][2] = {{1, 1}, {7, 1}, {7, 2}, {40, 3}, {40, 40}};
    const struct fund_return triple[1] = {{30000, 10000}};
    for (size_t i = 0; i < COUNT(tops_dates); i++) {
        uint16_t top = tops_dates[i][0], dates = tops_dates[i][1];
        const struct terms c = {top, 1, top, dates, 0, 1000, 1000000, 0, 0};
        about("largest value under top %u with N %u", (unsigned)top, (unsigned)dates);
        uint64_t most = tops(c, 2 * (uint64_t)dates + 1);
        valued_with(input_of(c, triple, 1), GMWB_DYNAMIC, most, (int64_t)most - 10000 * top);
    }
}

/*
 * 4,000 that triple pay 8,000 on each of 39 dates: values pass 2^31, and discount x sum 2^64. Under
 * dynamic withdrawals the second program would take long, so that the engine is called alone. A date
 * is worth 80,000,000 and what the next one is, or 40,000,000 at death.
 */
static void largest_payouts(uint16_t first_rate)
{
    const struct terms c = {1, 1, 4000, 40, 0, 1000, 1000000, 0, 0};
    const struct fund_return triple[1] = {{30000, 10000}};
    size_t entry = entry_of(c, 4000, 0);
    uint64_t expected = 40000000;
    uint16_t rates[40];
    for (size_t i = 40; i-- > 0;) {
        rates[i] = (uint16_t)(first_rate * (i + 1));
        if (i > 0)
            expected = 80000000 + ((UINT64_C(10000) - rates[i]) * expected +
                                   rates[i] * UINT64_C(40000000)) / 10000;
    }
    struct input in = input_of(c, triple, 1);
    pack_rates(&in, rates, 40);
    struct told t = untold();
    struct left l;
    about("largest payouts, rates from %u", (unsigned)first_rate);
    for (uint64_t behaviour = 0; behaviour <= 2; behaviour++) {
        struct valuing v = exact(in, behaviour);
        if (behaviour == GMWB_DYNAMIC) {
            l = lend_both(&v);
            same("number", value_by(gmwb_value, &v, &t, l), GMWB_SUCCESS);
            after_success(c, t, l);
        } else
            same("number", value(&v, &t, &l), GMWB_SUCCESS);
        same("value of (4,000, 0)", ((uint64_t *)start(l.work))[entry], expected);
        same("amount at (4,000, 0)", ((uint16_t *)start(l.table))[entry], 0);
        take_back_left(l);
    }
    if (first_rate == 0)
        same("the largest", expected, UINT64_C(3160000000));
}

/* ---- Death rates ------------------------------------------------------------------------------ */

/* Static, mixed and dynamic. */
static const struct {
    uint16_t top, dates;
    uint32_t discount;
    uint16_t rates[4];
    uint64_t values[3];
} DEATHS[] = {
    {20, 2, 1000000, {0, 0}, {125000, 125000, 130000}},
    {20, 2, 1000000, {100, 100}, {125000, 125000, 129950}},
    {20, 2, 1000000, {2500, 5000}, {125000, 125000, 128750}},
    {20, 2, 1000000, {10000, 0}, {125000, 125000, 125000}},
    {20, 2, 1000000, {10000, 10000}, {125000, 125000, 125000}},
    {20, 2, 1000000, {0, 10000}, {125000, 125000, 130000}},
    {20, 3, 1000000, {100, 200, 300}, {125000, 125000, 131162}},
    {20, 4, 1000000, {500, 500, 500, 500}, {123927, 123927, 137844}},
    {20, 2, 950000, {3333, 3333}, {116374, 116374, 118749}},
    /* Each value is rounded before the weights: 97,500.75 and 145,001.5, dynamic 152,499.25. */
    {20, 2, 950000, {3, 0}, {115187, 115187, 118749}},
    /* With one date death pays what maturity does, above top too: 5 or 15. */
    {20, 1, 1000000, {0}, {125000, 125000, 125000}},
    {20, 1, 1000000, {5000}, {125000, 125000, 125000}},
    {12, 1, 1000000, {10000}, {125000, 125000, 125000}},
    {10, 1, 1000000, {1}, {125000, 125000, 125000}},
    /* Death on date 1, at 5 or 15, of which 3 or 5 are above top. */
    {12, 2, 1000000, {10000, 0}, {125000, 125000, 125000}},
    {10, 2, 1000000, {10000, 0}, {125000, 125000, 125000}},
    {10, 2, 1000000, {5000, 0}, {127500, 127500, 131250}},
};

static void death_values(void)
{
    for (size_t i = 0; i < COUNT(DEATHS); i++) {
        struct terms c = P;
        c.top = DEATHS[i].top;
        c.dates = DEATHS[i].dates;
        c.discount = DEATHS[i].discount;
        struct input in = input_of(c, P_RETURNS, 2);
        pack_rates(&in, DEATHS[i].rates, c.dates);
        for (uint64_t behaviour = 0; behaviour <= 2; behaviour++) {
            about("P under top %u with N %u, discount %lu, rates from %u, behaviour %" PRIu64,
                  (unsigned)c.top, (unsigned)c.dates, (unsigned long)c.discount,
                  (unsigned)DEATHS[i].rates[0], behaviour);
            valued_with(in, behaviour, DEATHS[i].values[behaviour],
                        (int64_t)DEATHS[i].values[behaviour] - 100000);
        }
    }
}

/*
 * The first layer is a living holder's: the first rate has no part in it. At (15, 10) nothing drawn
 * leads to (7, 10) or to (20, 10) and 2, worth 100,000 and 220,000. With three dates the second rate
 * has a part in it: death for certain makes date 2 maturity.
 */
static void living_states(void)
{
    about("states of a living holder");
    state_with(p_with_rates(2, (uint16_t[]){10000, 0}), GMWB_DYNAMIC, 15, 10, 160000, 0);
    state_with(p_with_rates(2, (uint16_t[]){10000, 10000}), GMWB_DYNAMIC, 15, 10, 160000, 0);
    state_with(p_with_rates(2, (uint16_t[]){2500, 5000}), GMWB_DYNAMIC, 5, 10, 100000, 0);
    state_with(p_with_rates(3, (uint16_t[]){0, 10000, 0}), GMWB_DYNAMIC, 15, 10, 160000, 0);
    state_with(p_with_rates(3, (uint16_t[]){10000, 10000, 0}), GMWB_DYNAMIC, 15, 10, 160000, 0);
}

/*
 * Death for certain in a period pays what maturity on its closing date would: the contract is worth
 * what it is worth with the dates up to there, and the same amounts are recorded before. The layer
 * of date 1 tells of it where that date comes before.
 */
static void certain_death(uint64_t round)
{
    struct terms c = random_terms(20, 20, 6);
    struct input in = random_input(c, (size_t)between(1, 4));
    size_t period = (size_t)upto(c.dates - UINT64_C(1));
    put(in.rates + GMWB_RATE_BYTES * period, GMWB_RATE_BYTES, 10000);
    struct input ended = in;
    c.dates = (uint16_t)(period + 1);
    pack_record(&ended, c);
    ended.rates_len = GMWB_RATE_BYTES * (period + 1);
    about("round %" PRIu64 ": death for certain in period %lu", round, (unsigned long)period);
    for (uint64_t behaviour = 0; behaviour <= 2; behaviour++) {
        struct valuing v = exact(in, behaviour), w = exact(ended, behaviour);
        struct told t, s;
        struct left l, m;
        same("number", value(&v, &t, &l), GMWB_SUCCESS);
        same("number with fewer dates", value(&w, &s, &m), GMWB_SUCCESS);
        same("value with fewer dates", t.value, s.value);
        if (period > 0) {
            size_t layer = layer_of(c) * sizeof(uint64_t), table = m.table.bytes;
            holds("layer with fewer dates", memcmp(start(l.work), start(m.work), layer) == 0);
            holds("table with fewer dates", memcmp(start(l.table), start(m.table), table) == 0);
        }
        take_back_left(l);
        take_back_left(m);
    }
}

/* ---- The same returns in another list --------------------------------------------------------- */

/* P's figures, its returns in parts: from 2 to 64, in three orders. */
static void p_by_parts(void)
{
    static const uint64_t values[3] = {125000, 125000, 130000};
    for (size_t count = 2; count <= GMWB_MOST_RETURNS; count += count < 8 ? 1 : 7) {
        struct input in = p_in_parts(count);
        for (enum order order = RISING; order < ORDERS; order++) {
            struct input other = other_list(&in, order);
            about("P's returns in %lu parts, order %d", (unsigned long)count, (int)order);
            for (uint64_t behaviour = 0; behaviour <= 2; behaviour++)
                valued_with(other, behaviour, values[behaviour],
                            (int64_t)values[behaviour] - 100000);
        }
    }
}

/* "Every value and table is to equal those of the list order", here for two orders of the engine. */
static void same_in_lists(const struct valuing *v, const struct valuing *w)
{
    struct told t, s;
    struct left l, m;
    same("number", value(v, &t, &l), GMWB_SUCCESS);
    same("number of the other list", value(w, &s, &m), GMWB_SUCCESS);
    same("value of the other list", s.value, t.value);
    same_signed("margin of the other list", s.margin, t.margin);
    same_slice("working slice of the other list", m.work, l.work, sizeof(uint64_t));
    same_slice("table of the other list", m.table, l.table, sizeof(uint16_t));
    take_back_left(l);
    take_back_left(m);
}

static void in_lists(uint64_t round)
{
    struct terms c = random_terms(12, 12, 4);
    struct input in = alike_input(c, one_in(4) ? GMWB_MOST_RETURNS : (size_t)between(2, 12));
    for (enum order order = RISING; order < ORDERS; order++) {
        struct input other = other_list(&in, order);
        for (uint64_t behaviour = 0; behaviour <= 2; behaviour++) {
            struct valuing v = exact(in, behaviour), w = exact(other, behaviour);
            about_call("in lists, round", round, &w);
            same_in_lists(&v, &w);
        }
    }
}

/* ---- No rates --------------------------------------------------------------------------------- */

/* A list of rates without bytes may be NULL; no contract is accepted with it. */
static void no_rates(void)
{
    for (uint16_t dates = 1; dates <= 2; dates++) {
        struct terms c = P;
        c.dates = dates;
        struct valuing v = exact(input_of(c, P_RETURNS, 2), GMWB_STATIC);
        struct left l = lend_both(&v);
        struct told t = untold();
        about("N %u, no rates", (unsigned)dates);
        same("number", gmwb_value(v.in.record, v.in.record_len, v.in.list, v.in.list_len, NULL, 0,
                                  v.behaviour, start(l.work), v.work_len, start(l.table),
                                  v.table_len, &t.place, &t.value, &t.margin),
             GMWB_REFUSED_RATES_LENGTH);
        same("place", t.place, 0);
        after_refusal(t, l);
        take_back_left(l);
    }
}

int main(int argc, char **argv)
{
    struct rounds rounds = rounds_from(argc, argv, 2000);
    marked_values();
    marked_states();
    falling_rates();
    rates_at_zero();
    maturity_layer();
    payout_values();
    excess_on_first_return();
    fee_down_to_top();
    most_a_value_can_be();
    largest_payouts(0);
    largest_payouts(1);
    largest_payouts(250);
    death_values();
    living_states();
    for (uint64_t round = 0; round < one_in_rounds(rounds, 10, 1); round++)
        certain_death(round);
    p_by_parts();
    for (uint64_t round = 0; round < one_in_rounds(rounds, 20, ORDERS); round++)
        in_lists(round);
    no_rates();
    shared_tests(rounds);
    return verdict("value");
}
