/*
 * gmwb_value_map: the figures of request (ii), death rates, every refusal on both sides of its
 * boundary, the order of the checks, maps of every length that matters, and random contracts. Each
 * call is made on both programs and must tell and leave what gmwb_value does; each bit is compared
 * with the table that is left.
 */
#include "valuing.h"

/* ---- The call --------------------------------------------------------------------------------- */

/* Maps with a bit set, by behaviour: random rounds without them would show little. */
static uint64_t with_bits[3];

/* "set when the amount equals W and W is above m, clear otherwise" */
static bool surrendered(struct terms c, size_t entry, uint16_t amount)
{
    size_t row = (size_t)c.premium + 1, state = entry % layer_of(c);
    return amount == state / row && amount > free_amount(c, state % row);
}

/* "Unused bits of the last word are zero, and later words are untouched." */
static void bits_right(struct terms c, struct lent table, struct lent map, uint64_t count)
{
    const uint16_t *amounts = start(table);
    const uint64_t *words = start(map);
    uint64_t ones = 0;
    bool right = true;
    for (size_t e = 0; e < 64 * map_of(c); e++) {
        bool set = e < table_of(c) && surrendered(c, e, amounts[e]);
        right = right && ((words[e / 64] >> (e % 64)) & 1) == set;
        ones += set;
    }
    holds("each bit of the map", right);
    same("count", count, ones);
    untouched_from("map beyond its words", map, map_of(c) * sizeof(uint64_t));
}

/* The map a call is lent: its words, and whether they are all ones before. */
struct lending {
    size_t words;
    bool ones;
};

static struct lent lend_map(struct lending m)
{
    return m.ones ? lend_ones(m.words, sizeof(uint64_t)) : lend(m.words, sizeof(uint64_t));
}

/* gmwb_value_map or second_value_map */
typedef __typeof__(gmwb_value_map) map_call;

static uint32_t made(map_call *call, const struct valuing *v, struct told *t, struct left l,
                     struct lent map)
{
    struct lent record = lend_record(&v->in), list = lend_list(&v->in), rates = lend_rates(&v->in);
    uint32_t number = call(start(record), v->in.record_len, start(list), v->in.list_len,
                           start(rates), v->in.rates_len, v->behaviour, start(l.work), v->work_len,
                           start(l.table), v->table_len, start(map), map.bytes / sizeof(uint64_t),
                           &t->place, &t->value, &t->margin, &t->count);
    take_back(record);
    take_back(list);
    take_back(rates);
    return number;
}

/* Makes the call on both programs. Gives the number; told, left and map are the engine's. */
static uint32_t value_map(const struct valuing *v, struct lending lending,
                          struct told *told, struct left *left, struct lent *map)
{
    struct left l = lend_both(v), m = lend_both(v);
    struct lent lm = lend_map(lending), mm = lend_map(lending);
    struct told t = untold(), s = untold();
    uint32_t number = made(gmwb_value_map, v, &t, l, lm);
    uint32_t expected = made(second_value_map, v, &s, m, mm);
    same("number against the second program", number, expected);
    same_told(t, s);
    same_left(l, m);
    same_slice("map against the second program", lm, mm, sizeof(uint64_t));
    if (number != 0) {
        after_refusal(t, l);
        same("count after a refusal", t.count, 0);
        untouched("map after a refusal", lm);
    } else if (expected == 0) {
        after_success(terms_in(&v->in), t, l);
        bits_right(terms_in(&v->in), l.table, lm, t.count);
    }
    take_back_left(m);
    take_back(mm);
    *told = t;
    *left = l;
    *map = lm;
    return number;
}

/* The call with one map: it is refused by the number given, or does all that gmwb_value did. */
static void beside_value(const struct valuing *v, struct lending lending, uint32_t number,
                         struct told told, struct left left)
{
    struct told t;
    struct left l;
    struct lent map;
    size_t end = strlen(situation);
    snprintf(situation + end, sizeof situation - end, ", map of %lu%s",
             (unsigned long)lending.words, lending.ones ? ", all ones" : "");
    same("number with a map", value_map(v, lending, &t, &l, &map), number);
    if (number != GMWB_REFUSED_MAP) {
        same("place with a map", t.place, told.place);
        same("value with a map", t.value, told.value);
        same_signed("margin with a map", t.margin, told.margin);
        same_left(l, left);
    }
    if (number == 0 && t.count > 0)
        with_bits[v->behaviour]++;
    situation[end] = '\0';
    take_back_left(l);
    take_back(map);
}

/*
 * gmwb_value, then the call with a map that is too short and with one that is not. Where gmwb_value
 * refuses, the answer is the same whatever the map.
 */
static uint32_t value(const struct valuing *v, struct told *told, struct left *left)
{
    struct left l = lend_both(v);
    struct told t = untold();
    uint32_t number = value_by(gmwb_value, v, &t, l);
    tally(met, number);
    size_t needed = number == 0 ? map_of(terms_in(&v->in)) : (size_t)upto(4);
    struct lending enough = {needed + (size_t)(one_in(2) ? 0 : upto(9)), one_in(2)};
    beside_value(v, enough, number, t, l);
    if (needed > 0) {
        struct lending less = {one_in(2) ? needed - 1 : (size_t)upto(needed - 1), one_in(2)};
        beside_value(v, less, number == 0 ? GMWB_REFUSED_MAP : number, t, l);
    }
    *told = t;
    *left = l;
    return number;
}

/* ---- Figures ---------------------------------------------------------------------------------- */

static const uint16_t ZERO_RATES[MOST_DATES];

static struct valuing dated(uint16_t dates, uint64_t behaviour)
{
    return exact(p_with_rates(dates, ZERO_RATES), behaviour);
}

/* Count and words of P with some dates and their rates; no words are compared if none are given. */
static void map_with(uint16_t dates, const uint16_t *rates, uint64_t behaviour, uint64_t count,
                     const uint64_t *words)
{
    struct valuing v = exact(p_with_rates(dates, rates), behaviour);
    struct lending lending = {map_of(v.in.terms), true};
    struct told t;
    struct left l;
    struct lent map;
    about("map of P with N %u, rates from %u, behaviour %" PRIu64, (unsigned)dates,
          (unsigned)rates[0], behaviour);
    same("number", value_map(&v, lending, &t, &l, &map), GMWB_SUCCESS);
    same("count", t.count, count);
    for (size_t i = 0; words != NULL && i < lending.words; i++)
        same("word", ((uint64_t *)start(map))[i], words[i]);
    take_back_left(l);
    take_back(map);
}

static void map_is(uint16_t dates, uint64_t behaviour, uint64_t count, const uint64_t *words)
{
    map_with(dates, ZERO_RATES, behaviour, count, words);
}

/* Static draws m also where W equals it, which is no surrender. */
static void figures(void)
{
    static const uint64_t none[4], dynamic[4] = {0x800},
                          mixed[4] = {UINT64_C(0x0a00a00a00800800), 0x600200a0};
    map_is(2, GMWB_STATIC, 0, none);
    map_is(2, GMWB_MIXED, 13, mixed);
    map_is(2, GMWB_DYNAMIC, 1, dynamic);
    map_is(3, GMWB_STATIC, 0, NULL);
    map_is(3, GMWB_MIXED, 36, NULL);
    map_is(3, GMWB_DYNAMIC, 2, NULL);
    /*
     * The first rate and the last change no choice. Death for certain in the second of three periods
     * makes date 2 maturity: each date has the map of P's only decision date.
     */
    map_with(2, (uint16_t[]){10000, 10000}, GMWB_MIXED, 13, mixed);
    map_with(2, (uint16_t[]){10000, 10000}, GMWB_DYNAMIC, 1, dynamic);
    map_with(3, (uint16_t[]){10000, 0, 10000}, GMWB_MIXED, 36, NULL);
    map_with(3, (uint16_t[]){0, 10000, 0}, GMWB_MIXED, 26, NULL);
    map_with(3, (uint16_t[]){0, 10000, 0}, GMWB_DYNAMIC, 2, NULL);
}

/* A map without words may be NULL. It is enough for N = 1, as an empty table is. */
static void no_words(void)
{
    for (uint16_t dates = 1; dates <= 2; dates++) {
        struct valuing v = dated(dates, GMWB_MIXED);
        struct left l = lend_both(&v);
        struct told t = untold();
        about("N %u, no words", (unsigned)dates);
        uint32_t number =
            gmwb_value_map(v.in.record, v.in.record_len, v.in.list, v.in.list_len,
                           v.in.rates, v.in.rates_len, v.behaviour, start(l.work), v.work_len,
                           dates == 1 ? NULL : start(l.table), v.table_len, NULL, 0,
                           &t.place, &t.value, &t.margin, &t.count);
        same("number", number, dates == 1 ? GMWB_SUCCESS : GMWB_REFUSED_MAP);
        same("value", t.value, dates == 1 ? 125000 : 0);
        same("count", t.count, 0);
        if (dates > 1)
            after_refusal(t, l);
        take_back_left(l);
    }
}

/* A list of rates without bytes may be NULL too; no contract is accepted with it. */
static void no_rates(void)
{
    struct valuing v = dated(2, GMWB_MIXED);
    struct left l = lend_both(&v);
    struct lent map = lend(map_of(v.in.terms), sizeof(uint64_t));
    struct told t = untold();
    about("no rates");
    same("number", gmwb_value_map(v.in.record, v.in.record_len, v.in.list, v.in.list_len, NULL, 0,
                                  v.behaviour, start(l.work), v.work_len, start(l.table),
                                  v.table_len, start(map), map_of(v.in.terms),
                                  &t.place, &t.value, &t.margin, &t.count),
         GMWB_REFUSED_RATES_LENGTH);
    same("place", t.place, 0);
    same("count", t.count, 0);
    after_refusal(t, l);
    untouched("map after a refusal", map);
    take_back_left(l);
    take_back(map);
}

/* For N = 1 no word of a map is touched. */
static void one_date(void)
{
    for (uint64_t behaviour = 0; behaviour <= 2; behaviour++) {
        struct valuing v = dated(1, behaviour);
        about("N 1 with a map, behaviour %" PRIu64, behaviour);
        answered(&v, GMWB_SUCCESS, 0);
    }
}

/* ---- Lengths ---------------------------------------------------------------------------------- */

static void lent_words(const struct valuing *v, size_t words, uint32_t number)
{
    struct told t;
    struct left l;
    struct lent map;
    about("top %u, U %u, N %u, behaviour %" PRIu64 ", map of %lu", (unsigned)v->in.terms.top,
          (unsigned)v->in.terms.premium, (unsigned)v->in.terms.dates, v->behaviour,
          (unsigned long)words);
    for (int ones = 0; ones <= 1; ones++) {
        struct lending lending = {words, ones == 1};
        same("number", value_map(v, lending, &t, &l, &map), number);
        same("place", t.place, 0);
        take_back_left(l);
        take_back(map);
    }
}

/*
 * Tables of 63, 64 and 65 entries, of several dates, with rows shorter than a word, as long and
 * longer. At a discount of 1 later values count for nothing: every W above m is surrendered.
 */
static void lengths(void)
{
    static const uint16_t shapes[][3] = {{8, 6, 2}, {7, 7, 2}, {12, 4, 2}, {3, 3, 5}, {10, 6, 6},
                                         {15, 15, 4}, {62, 62, 2}, {63, 63, 2}, {64, 64, 2},
                                         {130, 130, 2}, {300, 1, 2}};
    for (size_t i = 0; i < COUNT(shapes); i++) {
        const struct terms c = {shapes[i][1], 1, shapes[i][0], shapes[i][2], 0, 1000,
                                i % 2 == 0 ? 1 : 990000, 100, 0};
        for (uint64_t behaviour = 0; behaviour <= 2; behaviour++) {
            struct valuing v = exact(input_of(c, P_RETURNS, 2), behaviour);
            size_t needed = map_of(c);
            lent_words(&v, 0, GMWB_REFUSED_MAP);
            lent_words(&v, needed - 1, GMWB_REFUSED_MAP);
            lent_words(&v, needed, GMWB_SUCCESS);
            lent_words(&v, needed + 1, GMWB_SUCCESS);
        }
    }
    /* Too short in 16 bits. */
    struct valuing v = dated(2, GMWB_MIXED);
    lent_words(&v, 65536, GMWB_SUCCESS);
}

/*
 * "checked after 11": a map that is short is not looked at where another slice is short too, nor
 * where the rates are wrong.
 */
static void last_check(void)
{
    struct valuing v = dated(2, GMWB_MIXED);
    v.in.rates_len++;
    lent_words(&v, 3, GMWB_REFUSED_RATES_LENGTH);
    v.in.rates_len--;
    put(v.in.rates, GMWB_RATE_BYTES, 10001);
    lent_words(&v, 3, GMWB_REFUSED_DEATH_RATE);
    zero_rates(&v.in);
    v.work_len--;
    lent_words(&v, 3, GMWB_REFUSED_SLICE);
    v.work_len++;
    v.table_len--;
    lent_words(&v, 3, GMWB_REFUSED_SLICE);
    v.table_len++;
    lent_words(&v, 3, GMWB_REFUSED_MAP);
}

int main(int argc, char **argv)
{
    struct rounds rounds = rounds_from(argc, argv, 2000);
    figures();
    no_words();
    no_rates();
    one_date();
    lengths();
    last_check();
    shared_tests(rounds);
    about("random rounds");
    same("static maps with a bit", with_bits[GMWB_STATIC], 0);
    uint64_t least = rounds.usual ? 500 : 0;
    if (rounds.usual || rounds.least)
        holds("maps with a bit", with_bits[GMWB_MIXED] > least && with_bits[GMWB_DYNAMIC] > least);
    return verdict("map");
}
