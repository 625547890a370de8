/*
 * gmwb_value_no_table: the marked cases, every refusal on both sides of its boundary, the order of
 * the checks, working slices of every length that matters, slices that are NULL, and random
 * contracts. Each call is made on both programs, and on the engine with a table beside it.
 */
#include "valuing.h"

/* ---- The call --------------------------------------------------------------------------------- */

/* gmwb_value_no_table or second_value_no_table */
typedef __typeof__(gmwb_value_no_table) no_table_call;

static uint32_t made(no_table_call *call, const struct valuing *v, struct told *t, struct lent work)
{
    struct lent record = lend_record(&v->in), list = lend_list(&v->in), rates = lend_rates(&v->in);
    uint32_t number = call(start(record), v->in.record_len, start(list), v->in.list_len,
                           start(rates), v->in.rates_len, v->behaviour, start(work), v->work_len,
                           &t->place, &t->value, &t->margin);
    take_back(record);
    take_back(list);
    take_back(rates);
    return number;
}

/*
 * gmwb_value tells the same and leaves the same working slice. It gets a table of the length
 * needed, or none where the call is refused: what is refused without a table is refused with any.
 */
static void as_with_table(const struct valuing *v, uint32_t number, struct told t, struct lent work)
{
    struct valuing w = *v;
    w.table_len = number == 0 ? table_of(terms_in(&v->in)) : 0;
    struct left l = lend_both(&w);
    struct told s = untold();
    same("number with a table", value_by(gmwb_value, &w, &s, l), number);
    same("place with a table", s.place, t.place);
    same("value with a table", s.value, t.value);
    same_signed("margin with a table", s.margin, t.margin);
    same_slice("working slice with a table", work, l.work, sizeof(uint64_t));
    take_back_left(l);
}

/* What is lent as a table is not passed. */
static uint32_t value(const struct valuing *v, struct told *told, struct left *left)
{
    struct left l = lend_both(v), m = lend_both(v);
    struct told t = untold(), s = untold();
    uint32_t number = made(gmwb_value_no_table, v, &t, l.work);
    uint32_t expected = made(second_value_no_table, v, &s, m.work);
    tally(met, number);
    same("number against the second program", number, expected);
    same_told(t, s);
    same_left(l, m);
    if (number != 0)
        after_refusal(t, l);
    else if (expected == 0)
        after_success(terms_in(&v->in), t, l);
    if (number == expected)
        as_with_table(v, number, t, l.work);
    take_back_left(m);
    *told = t;
    *left = l;
    return number;
}

/* ---- Marked cases ----------------------------------------------------------------------------- */

static void valued(struct input in, uint64_t behaviour, uint64_t expected)
{
    struct valuing v = exact(in, behaviour);
    struct told t;
    struct left l;
    same("number", value(&v, &t, &l), GMWB_SUCCESS);
    same("value", t.value, expected);
    same_signed("margin", t.margin, (int64_t)expected - 10000 * (int64_t)in.terms.premium);
    take_back_left(l);
}

static void marked_values(void)
{
    static const uint64_t p[3] = {125000, 125000, 130000}, q[3] = {107500, 110000, 110000};
    static const uint64_t dying[3] = {125000, 125000, 128750};
    const struct terms one_date = {10, 5, 20, 1, 0, 1000, 1000000, 0, 0};
    const struct terms lost = {10, 5, 20, 2, 0, 1000, 1, 0, 0};
    for (uint64_t behaviour = 0; behaviour <= 2; behaviour++) {
        about("marked cases, behaviour %" PRIu64, behaviour);
        valued(input_p(), behaviour, p[behaviour]);
        valued(input_of(Q, P_RETURNS, 2), behaviour, q[behaviour]);
        valued(input_of(one_date, P_RETURNS, 2), behaviour, 125000);
        valued(p_with_rates(2, (uint16_t[]){2500, 5000}), behaviour, dying[behaviour]);
        valued(input_of(lost, P_RETURNS, 2), behaviour, 0);
    }
}

/* The values of date 1 at (15, 10), (5, 10) and Q's (12, 10). */
static void marked_states(void)
{
    static const uint64_t states[3][3] = {{15, 10, 160000}, {5, 10, 100000}, {12, 10, 120000}};
    for (size_t i = 0; i < 3; i++) {
        struct input in = i < 2 ? input_p() : input_of(Q, P_RETURNS, 2);
        struct valuing v = exact(in, GMWB_DYNAMIC);
        struct told t;
        struct left l;
        about("state (%" PRIu64 ", %" PRIu64 ")", states[i][0], states[i][1]);
        same("number", value(&v, &t, &l), GMWB_SUCCESS);
        size_t entry = entry_of(in.terms, states[i][0], states[i][1]);
        same("value of the state", ((uint64_t *)start(l.work))[entry], states[i][2]);
        take_back_left(l);
    }
}

/* ---- Slices ----------------------------------------------------------------------------------- */

/* Without a decision date too, where a table has no entry. */
static void work_lengths(void)
{
    for (uint16_t dates = 1; dates <= 4; dates += 3) {
        const struct terms c = {10, 5, 20, dates, 0, 1000, 1000000, 0, 0};
        struct valuing v = exact(input_of(c, P_RETURNS, 2), GMWB_DYNAMIC);
        size_t work = v.work_len;
        /* The longest would be too short in 16 bits. */
        const size_t works[] = {0, 1, work / 2, work - 1, work, work + 1, 65536};
        for (size_t i = 0; i < COUNT(works); i++) {
            about("N %u, working slice of %lu", (unsigned)dates, (unsigned long)works[i]);
            v.work_len = works[i];
            answered(&v, works[i] < work ? GMWB_REFUSED_SLICE : GMWB_SUCCESS, 0);
        }
    }
}

/* A slice without entries may be NULL. No contract is accepted with one. */
static void no_slices(void)
{
    struct input in = input_p();
    struct lent work = lend(work_of(P), sizeof(uint64_t));
    for (uint32_t i = 0; i < 4; i++) {
        static const uint32_t numbers[4] = {1, 7, 17, 11};
        struct told t = untold();
        about("slice %lu without entries", (unsigned long)i);
        same("number", gmwb_value_no_table(i == 0 ? NULL : in.record, i == 0 ? 0 : in.record_len,
                                           i == 1 ? NULL : in.list, i == 1 ? 0 : in.list_len,
                                           i == 2 ? NULL : in.rates, i == 2 ? 0 : in.rates_len,
                                           GMWB_STATIC, i == 3 ? NULL : start(work),
                                           i == 3 ? 0 : work_of(P), &t.place, &t.value, &t.margin),
             numbers[i]);
        same("place", t.place, 0);
        same("value after a refusal", t.value, 0);
        same_signed("margin after a refusal", t.margin, 0);
        untouched("working slice after a refusal", work);
    }
    take_back(work);
}

/* ---- A larger contract ------------------------------------------------------------------------ */

/* The second program would take long, so that the engine is called alone, and with a table. */
static void larger_alone(void)
{
    const struct terms c = {200, 10, 400, 20, 150, 800, 985000, 50, 0};
    struct input in = random_input(c, 32);
    for (uint64_t behaviour = 0; behaviour <= 2; behaviour++) {
        struct valuing v = exact(in, behaviour);
        struct lent work = lend(v.work_len, sizeof(uint64_t));
        struct told t = untold();
        about("larger contract, behaviour %" PRIu64, behaviour);
        same("number", made(gmwb_value_no_table, &v, &t, work), GMWB_SUCCESS);
        as_with_table(&v, GMWB_SUCCESS, t, work);
        take_back(work);
    }
}

int main(int argc, char **argv)
{
    struct rounds rounds = rounds_from(argc, argv, 2000);
    marked_values();
    marked_states();
    shared_refusals();
    work_lengths();
    no_slices();
    larger_alone();
    shared_rounds(rounds);
    return verdict("no_table");
}
