/*
 * gmwb_value_table and gmwb_walk: their refusals on both sides of each boundary, what is left in the
 * slices, returns that lift an account above top, death rates, slices that share memory, the value
 * of a table against walks along every path, and random tables and walks against the second program.
 */
#include "contracts.h"

__extension__ typedef unsigned __int128 wide;

/* ---- The calls -------------------------------------------------------------------------------- */

/* The room holds table and path whatever the lengths lent are. */
struct followed {
    struct input in;
    const uint16_t *table;
    size_t table_room, table_len;
    const uint16_t *path;
    size_t path_room, path_len;
    size_t work_len, cash_len;
};

static struct lent lend_table(const struct followed *f)
{
    return lend_copy(f->table, f->table_room * sizeof(uint16_t), f->table_len * sizeof(uint16_t));
}

static struct lent lend_path(const struct followed *f)
{
    return lend_copy(f->path, f->path_room * sizeof(uint16_t), f->path_len * sizeof(uint16_t));
}

/* Slices as long as needed, a table of the contract's length and a path of one number a date. */
static struct followed exact(struct input in, const uint16_t *table, const uint16_t *path)
{
    size_t entries = table_of(in.terms), dates = in.terms.dates;
    struct followed f = {in, table, entries, entries, path, dates, dates, work_of(in.terms), dates};
    return f;
}

/* What the calls of this run answered, of either kind. */
static uint64_t met[NUMBERS], met_by_walk[NUMBERS];

/* Makes the call on both programs. Gives the number; told and work are the engine's. */
static uint32_t value_table(const struct followed *f, struct told *told, struct lent *work)
{
    struct lent record = lend_record(&f->in), list = lend_list(&f->in), rates = lend_rates(&f->in);
    struct lent table = lend_table(f);
    struct lent w = lend(f->work_len, sizeof(uint64_t)), x = lend(f->work_len, sizeof(uint64_t));
    struct told t = untold(), s = untold();
    uint32_t number =
        gmwb_value_table(start(record), f->in.record_len, start(list), f->in.list_len,
                         start(rates), f->in.rates_len, start(w), f->work_len,
                         start(table), f->table_len, &t.place, &t.value, &t.margin);
    uint32_t expected =
        second_value_table(start(record), f->in.record_len, start(list), f->in.list_len,
                           start(rates), f->in.rates_len, start(x), f->work_len,
                           start(table), f->table_len, &s.place, &s.value, &s.margin);
    same("value_table: number against the second program", number, expected);
    tally(met, number);
    same_told(t, s);
    same_slice("value_table: working slice against the second program", w, x, sizeof(uint64_t));
    if (number != 0) {
        same("value_table: value after a refusal", t.value, 0);
        same_signed("value_table: margin after a refusal", t.margin, 0);
        untouched("value_table: working slice after a refusal", w);
    }
    take_back(record);
    take_back(list);
    take_back(rates);
    take_back(table);
    take_back(x);
    *told = t;
    *work = w;
    return number;
}

/* The same for a walk; cash is the engine's. */
static uint32_t walk(const struct followed *f, uint64_t *place, struct lent *cash)
{
    struct lent record = lend_record(&f->in), list = lend_list(&f->in), table = lend_table(f);
    struct lent path = lend_path(f);
    struct lent c = lend(f->cash_len, sizeof(uint64_t)), d = lend(f->cash_len, sizeof(uint64_t));
    struct told t = untold(), s = untold();
    uint32_t number =
        gmwb_walk(start(record), f->in.record_len, start(list), f->in.list_len, start(table),
                  f->table_len, start(path), f->path_len, start(c), f->cash_len, &t.place);
    uint32_t expected =
        second_walk(start(record), f->in.record_len, start(list), f->in.list_len, start(table),
                    f->table_len, start(path), f->path_len, start(d), f->cash_len, &s.place);
    same("walk: number against the second program", number, expected);
    tally(met_by_walk, number);
    same_told(t, s);
    same_slice("walk: cash against the second program", c, d, sizeof(uint64_t));
    if (number != 0)
        untouched("walk: cash after a refusal", c);
    else
        same("walk: place after success", t.place, 0);
    take_back(record);
    take_back(list);
    take_back(table);
    take_back(path);
    take_back(d);
    *place = t.place;
    *cash = c;
    return number;
}

static void table_answered(const struct followed *f, uint32_t number, uint64_t place)
{
    struct told t;
    struct lent work;
    same("value_table: number", value_table(f, &t, &work), number);
    same("value_table: place", t.place, place);
    take_back(work);
}

static void walk_answered(const struct followed *f, uint32_t number, uint64_t place)
{
    uint64_t p;
    struct lent cash;
    same("walk: number", walk(f, &p, &cash), number);
    same("walk: place", p, place);
    take_back(cash);
}

/* ---- Tables ----------------------------------------------------------------------------------- */

/* For the contracts of this part: P with up to 5 dates. */
enum { TABLE_ROOM = 4 * 21 * 11 + 9, PATH_ROOM = 6 };

static const struct terms P3 = {10, 5, 20, 3, 0, 1000, 1000000, 0, 0};
static const uint16_t ZEROS[TABLE_ROOM];
static const uint16_t FIRST_RETURN[PATH_ROOM];

static struct followed zeros_on(struct terms c)
{
    return exact(input_of(c, P_RETURNS, 2), ZEROS, FIRST_RETURN);
}

/* Every entry as large as allowed; then one of them larger by 1, reachable or not. */
static void bad_entries(void)
{
    uint16_t table[TABLE_ROOM];
    size_t entries = table_of(P3);
    for (size_t i = 0; i < entries; i++)
        table[i] = largest_at(P3, i);
    struct followed f = zeros_on(P3);
    f.table = table;
    about("largest amounts");
    table_answered(&f, GMWB_SUCCESS, 0);
    for (size_t i = 0; i < entries; i++) {
        about("entry %lu of %lu too large", (unsigned long)i, (unsigned long)entries);
        table[i]++;
        table_answered(&f, GMWB_REFUSED_AMOUNT, i);
        table[i]--;
    }
    about("entries 300 and 17 bad");
    table[300] = 65535;
    table[17] = 65535;
    table_answered(&f, GMWB_REFUSED_AMOUNT, 17);
}

static void bad_entry_beyond(void)
{
    uint16_t table[TABLE_ROOM] = {0};
    size_t entries = table_of(P3);
    table[entries] = 65535;
    struct followed f = zeros_on(P3);
    f.table = table;
    f.table_room = f.table_len = entries + 1;
    about("bad entry beyond the table's layers");
    table_answered(&f, GMWB_SUCCESS, 0);
    walk_answered(&f, GMWB_SUCCESS, 0);
}

static void slice_lengths(void)
{
    struct followed f = zeros_on(P3);
    size_t work = f.work_len, table = f.table_len;
    /* The longest would be too short in 16 bits. */
    const size_t works[] = {0, work / 2, work - 1, work, work + 1, 65536};
    const size_t tables[] = {0, table / 2, table - 1, table, table + 1, 65536};
    const size_t cashes[] = {0, 1, 2, 3, 4, 65536};
    for (size_t i = 0; i < 6; i++) {
        for (size_t k = 0; k < 6; k++) {
            f.table_len = tables[i];
            f.work_len = works[k];
            f.cash_len = cashes[k];
            about("table of %lu, working slice of %lu, cash of %lu", (unsigned long)f.table_len,
                  (unsigned long)f.work_len, (unsigned long)f.cash_len);
            bool fits = tables[i] >= table && works[k] >= work;
            table_answered(&f, fits ? GMWB_SUCCESS : GMWB_REFUSED_SLICE, 0);
            fits = tables[i] >= table && cashes[k] >= 3;
            walk_answered(&f, fits ? GMWB_SUCCESS : GMWB_REFUSED_SLICE, 0);
        }
    }
}

/* The table that gmwb_value leaves. */
static uint16_t *recorded(const struct input *in, uint64_t behaviour, struct told *told,
                          struct lent *work)
{
    size_t entries = table_of(in->terms);
    uint16_t *table = allocate((entries + 1) * sizeof *table);
    struct told t = untold();
    *work = lend(work_of(in->terms), sizeof(uint64_t));
    uint32_t number = gmwb_value(in->record, in->record_len, in->list, in->list_len,
                                 in->rates, in->rates_len, behaviour, start(*work),
                                 work_of(in->terms), table, entries,
                                 &t.place, &t.value, &t.margin);
    same("value: number", number, GMWB_SUCCESS);
    *told = t;
    return table;
}

/* Supplied back, it earns the same, and leaves the same working slice. */
static void supplied_back(const struct input *in)
{
    for (uint64_t behaviour = 0; behaviour <= 2; behaviour++) {
        struct told t, s;
        struct lent work, again;
        uint16_t *table = recorded(in, behaviour, &t, &work);
        struct followed f = exact(*in, table, FIRST_RETURN);
        same("value_table: number", value_table(&f, &s, &again), GMWB_SUCCESS);
        same("value_table: value of the recorded table", s.value, t.value);
        same_signed("value_table: margin of the recorded table", s.margin, t.margin);
        same_slice("value_table: working slice as after gmwb_value", again, work, sizeof(uint64_t));
        take_back(work);
        take_back(again);
        free(table);
    }
}

static void recorded_tables(void)
{
    struct input p = input_p(), q = input_of(Q, P_RETURNS, 2), p3 = input_of(P3, P_RETURNS, 2);
    about("tables of P");
    supplied_back(&p);
    about("tables of Q");
    supplied_back(&q);
    about("tables of P with 3 dates");
    supplied_back(&p3);
    about("tables of P with 3 dates and death rates");
    pack_rates(&p3, (uint16_t[]){100, 200, 300}, 3);
    supplied_back(&p3);
}

/*
 * Large values by withdrawals: an account of 4,000 triples, 2,666 are drawn on each of 39 dates,
 * 1,334 stay and come to 2 more than 4,000, and 4,000 remain. The discounted sum passes 2^63 on the
 * way.
 */
static void large_values(void)
{
    const struct terms c = {1, 1, 4000, 40, 0, 0, 1000000, 0, 0};
    const struct fund_return triple[1] = {{30000, 10000}};
    size_t entries = table_of(c);
    uint16_t *table = allocate(entries * sizeof *table);
    for (size_t i = 0; i < entries; i++) {
        size_t account = i % layer_of(c) / 2;
        table[i] = (uint16_t)(account - (account + 2) / 3);
    }
    struct followed f = exact(input_of(c, triple, 1), table, NULL);
    struct told t;
    struct lent work;
    about("large values");
    same("value_table: number", value_table(&f, &t, &work), GMWB_SUCCESS);
    same("value of (4,000, 0)", ((uint64_t *)start(work))[entry_of(c, 4000, 0)],
         UINT64_C(39) * (26660000 + 20000) + 40000000);
    take_back(work);
    free(table);
}

/* ---- Records, lists and death rates refused --------------------------------------------------- */

/* Slices for a record that is refused are those of P: they are not sized by what is wrong. */
static void input_answered(const struct input *in, uint32_t number, uint64_t place)
{
    struct terms c = number == 0 ? in->terms : P;
    struct followed f = exact(input_of(c, P_RETURNS, 2), NULL, NULL);
    f.table_room = f.path_room = 0;
    f.in = *in;
    table_answered(&f, number, place);
    walk_answered(&f, number, place);
}

/* Here all else about the call is wrong too. */
static void ordered_case(const struct input *in, uint32_t number, uint64_t place)
{
    struct followed f = {*in, NULL, 0, 0, NULL, 0, 0, 0, 0};
    table_answered(&f, number, place);
    walk_answered(&f, number, place);
}

/* A walk takes no rates, so that wrong ones do not matter to it. */
static void rates_case(const struct input *in, uint32_t number, uint64_t place)
{
    struct followed f = exact(input_of(in->terms, P_RETURNS, 2), NULL, NULL);
    f.table_room = f.path_room = 0;
    f.in = *in;
    table_answered(&f, number, place);
    walk_answered(&f, GMWB_SUCCESS, 0);
}

static void ordered_rates_case(const struct input *in, uint32_t number, uint64_t place)
{
    uint16_t bad[1] = {65535};
    struct followed f = exact(*in, bad, NULL);
    f.table_room = 1;
    f.path_room = 0;
    about("death rates, table entries");
    table_answered(&f, number, place);
    about("death rates, slices");
    f.table_len = f.work_len = 0;
    table_answered(&f, number, place);
}

/* A list of rates without bytes may be NULL; no contract is accepted with it. */
static void no_rates(void)
{
    struct followed f = zeros_on(P);
    struct told t = untold();
    struct lent work = lend(f.work_len, sizeof(uint64_t));
    about("no rates");
    same("value_table: number",
         gmwb_value_table(f.in.record, f.in.record_len, f.in.list, f.in.list_len, NULL, 0,
                          start(work), f.work_len, f.table, f.table_len,
                          &t.place, &t.value, &t.margin),
         GMWB_REFUSED_RATES_LENGTH);
    same("value_table: place", t.place, 0);
    same("value_table: value after a refusal", t.value, 0);
    same_signed("value_table: margin after a refusal", t.margin, 0);
    untouched("value_table: working slice after a refusal", work);
    take_back(work);
}

static void later_checks_in_order(void)
{
    uint16_t table[TABLE_ROOM], path[3] = {2, 65535, 0};
    for (size_t i = 0; i < TABLE_ROOM; i++)
        table[i] = 65535;
    struct followed f = exact(input_p(), table, path);
    f.path_room = f.path_len = 3;
    f.table_len--;
    about("order: table, path, entries");
    table_answered(&f, GMWB_REFUSED_SLICE, 0);
    walk_answered(&f, GMWB_REFUSED_SLICE, 0);
    about("order: cash, path, entries");
    f.table_len++;
    f.cash_len--;
    table_answered(&f, GMWB_REFUSED_AMOUNT, 0);
    walk_answered(&f, GMWB_REFUSED_SLICE, 0);
    about("order: count, numbers, entries");
    f.cash_len++;
    walk_answered(&f, GMWB_REFUSED_PATH, 2);
    about("order: numbers, entries");
    f.path_len = 2;
    walk_answered(&f, GMWB_REFUSED_PATH, 0);
    path[0] = 0;
    walk_answered(&f, GMWB_REFUSED_PATH, 1);
    about("order: entries");
    path[1] = 1;
    walk_answered(&f, GMWB_REFUSED_AMOUNT, 1);
}

/* ---- Walks ------------------------------------------------------------------------------------ */

static void pays(const struct followed *f, const uint64_t *expected)
{
    uint64_t place;
    struct lent cash;
    same("walk: number", walk(f, &place, &cash), GMWB_SUCCESS);
    for (size_t i = 0; i < f->path_len; i++)
        same("walk: cash", ((uint64_t *)start(cash))[i], expected[i]);
    untouched_from("walk: cash beyond the dates", cash, f->path_len * sizeof(uint64_t));
    take_back(cash);
}

static void cash_along(struct terms c, const uint16_t *table, const uint16_t *path,
                       const uint64_t *expected)
{
    struct followed f = exact(input_of(c, P_RETURNS, 2), table, path);
    f.cash_len += 2;
    pays(&f, expected);
}

/*
 * P's dynamic table draws nothing: 15 come to 7, or to 22 and 2 are paid. With three dates 1 is drawn
 * at (15, 10) and nothing else: 14 come to 7, or to 21 and 1 is paid; then 20 come to 30. With one
 * date there is only the maturity payment.
 */
static void cash_by_hand(void)
{
    struct told t;
    struct lent work;
    about("walks of P");
    struct input in = input_p();
    uint16_t *table = recorded(&in, GMWB_DYNAMIC, &t, &work);
    cash_along(P, table, (uint16_t[]){0, 0}, (uint64_t[]){0, 100000});
    cash_along(P, table, (uint16_t[]){0, 1}, (uint64_t[]){0, 100000});
    cash_along(P, table, (uint16_t[]){1, 0}, (uint64_t[]){0, 100000});
    cash_along(P, table, (uint16_t[]){1, 1}, (uint64_t[]){0, 220000});
    take_back(work);
    free(table);
    about("walks of three dates");
    in = input_of(P3, P_RETURNS, 2);
    table = recorded(&in, GMWB_DYNAMIC, &t, &work);
    cash_along(P3, table, (uint16_t[]){1, 1, 1}, (uint64_t[]){10000, 10000, 300000});
    cash_along(P3, table, (uint16_t[]){1, 0, 1}, (uint64_t[]){10000, 0, 100000});
    cash_along(P3, table, (uint16_t[]){0, 1, 1}, (uint64_t[]){0, 0, 100000});
    take_back(work);
    free(table);
    about("walks of one date");
    const struct terms c = {10, 5, 20, 1, 0, 1000, 1000000, 0, 0};
    cash_along(c, NULL, (uint16_t[]){0}, (uint64_t[]){100000});
    cash_along(c, NULL, (uint16_t[]){1}, (uint64_t[]){150000});
}

/*
 * A return that changes nothing: 7 are drawn from (20, 20), 7 from (13, 13) and 6 from (6, 6), on
 * dates 1 to 3. The penalty falls on 2, 2 and 1; the value is the sum of the cash.
 */
static void falling_rates(void)
{
    static const uint16_t steps[4] = {0, 300, 500, 10000}, path[4];
    static const uint64_t cashes[4][4] = {
        {68000, 68000, 59000, 0},
        {68000, 68600, 59600, 0},
        {68000, 69000, 60000, 0},
        {68000, 70000, 60000, 0},
    };
    const struct fund_return still[1] = {{10000, 10000}};
    for (size_t i = 0; i < 4; i++) {
        const struct terms c = {20, 5, 20, 4, 0, 1000, 1000000, steps[i], 0};
        uint16_t table[3 * 21 * 21] = {0};
        table[entry_of(c, 20, 20)] = 7;
        table[layer_of(c) + entry_of(c, 13, 13)] = 7;
        table[2 * layer_of(c) + entry_of(c, 6, 6)] = 6;
        struct followed f = exact(input_of(c, still, 1), table, path);
        about("step %u", (unsigned)steps[i]);
        pays(&f, cashes[i]);
        struct told t;
        struct lent work;
        same("value_table: number", value_table(&f, &t, &work), GMWB_SUCCESS);
        same("value_table: value", t.value, cashes[i][0] + cashes[i][1] + cashes[i][2]);
        take_back(work);
    }
}

/*
 * P's second return leads to (20, 10) on every date from 2 on, with an excess of 2 there and of 10
 * from then on. 20 are drawn on date 9, where the rate has fallen to zero, and nothing is left;
 * 8 x 8,192 is 0 in 16 bits.
 */
static void drawn_late(void)
{
    const struct terms c = {10, 5, 20, 40, 0, 10000, 1000000, 8192, 0};
    uint16_t path[40], *table = allocate(table_of(c) * sizeof *table);
    uint64_t cash[40] = {0};
    for (size_t i = 0; i < COUNT(path); i++)
        path[i] = 1;
    table[8 * layer_of(c) + entry_of(c, 20, 10)] = 20;
    cash[1] = 20000;
    for (size_t i = 2; i < 8; i++)
        cash[i] = 100000;
    cash[8] = 300000;
    struct followed f = exact(input_of(c, P_RETURNS, 2), table, path);
    about("20 drawn on date 9");
    pays(&f, cash);
    table_answered(&f, GMWB_SUCCESS, 0);
    free(table);
}

/* ---- Returns that lift an account above top --------------------------------------------------- */

/* P under top 12 with three dates; a return that changes nothing and one that triples. */
static const struct terms UNDER_12 = {10, 5, 12, 3, 0, 1000, 1000000, 0, 0};
static const struct fund_return STILL_OR_TRIPLE[2] = {{10000, 5000}, {30000, 5000}};

static void tripled(const uint16_t *table, const uint16_t *path, const uint64_t *expected)
{
    struct followed f = exact(input_of(UNDER_12, STILL_OR_TRIPLE, 2), table, path);
    about("tripled by returns %u, %u, %u", path[0], path[1], path[2]);
    pays(&f, expected);
}

/* Nothing is drawn: 10 triple to 30 on the way to date 1 or to date 2, or 12 to 36 after that. */
static void excess_at_decision_date(void)
{
    tripled(ZEROS, (uint16_t[]){1, 0, 0}, (uint64_t[]){180000, 0, 120000});
    tripled(ZEROS, (uint16_t[]){0, 1, 0}, (uint64_t[]){0, 180000, 120000});
    tripled(ZEROS, (uint16_t[]){1, 1, 0}, (uint64_t[]){180000, 240000, 120000});
    /* The eight paths pay 3,400,000 in all. */
    struct followed f = exact(input_of(UNDER_12, STILL_OR_TRIPLE, 2), ZEROS, FIRST_RETURN);
    struct told t;
    struct lent work;
    about("nothing drawn under top 12");
    same("value_table: number", value_table(&f, &t, &work), GMWB_SUCCESS);
    same("value_table: value", t.value, 425000);
    take_back(work);
}

/* The last return lifts 10 or 12 above top, beside the maturity payment of top. */
static void excess_at_maturity(void)
{
    tripled(ZEROS, (uint16_t[]){0, 0, 0}, (uint64_t[]){0, 0, 100000});
    tripled(ZEROS, (uint16_t[]){0, 0, 1}, (uint64_t[]){0, 0, 300000});
    tripled(ZEROS, (uint16_t[]){1, 0, 1}, (uint64_t[]){180000, 0, 360000});
    tripled(ZEROS, (uint16_t[]){1, 1, 1}, (uint64_t[]){180000, 240000, 360000});
}

/* The walk of one date is all maturity: 10 are lifted to top, to one above it and further. */
static void excess_on_first_return(void)
{
    static const uint16_t factors[4] = {12000, 12999, 13000, 30000};
    static const uint64_t paid[4] = {120000, 120000, 130000, 300000};
    struct terms c = UNDER_12;
    c.dates = 1;
    for (size_t i = 0; i < 4; i++) {
        const struct fund_return single[1] = {{factors[i], 10000}};
        struct followed f = exact(input_of(c, single, 1), NULL, FIRST_RETURN);
        about("10 under top 12, factor %u", (unsigned)factors[i]);
        pays(&f, &paid[i]);
    }
}

/* At (12, 10) 6 are drawn: the penalty falls on 1 above m, and not on the 18 paid on arrival. */
static void excess_without_penalty(void)
{
    uint16_t table[TABLE_ROOM] = {0};
    table[entry_of(UNDER_12, 12, 10)] = 6;
    tripled(table, (uint16_t[]){1, 0, 0}, (uint64_t[]){239000, 0, 60000});
}

/*
 * Nothing is drawn from 4,000 that triple: 8,000 are paid on each of 39 dates, and values pass 2^31.
 * A premium of 1 passes 4,000 on date 8, as 6,561.
 */
static void largest_payouts(void)
{
    const struct terms c = {1, 1, 4000, 40, 0, 1000, 1000000, 0, 0};
    const struct fund_return triple[1] = {{30000, 10000}};
    uint16_t *table = allocate(table_of(c) * sizeof *table), path[40] = {0};
    uint64_t cash[40] = {0};
    struct followed f = exact(input_of(c, triple, 1), table, path);
    struct told t;
    struct lent work;
    about("largest payouts");
    same("value_table: number", value_table(&f, &t, &work), GMWB_SUCCESS);
    same("value of (4,000, 0)", ((uint64_t *)start(work))[entry_of(c, 4000, 0)],
         UINT64_C(3160000000));
    take_back(work);
    cash[7] = 25610000;
    for (size_t i = 8; i < 39; i++)
        cash[i] = 80000000;
    cash[39] = 120000000;
    pays(&f, cash);
    free(table);
}

/* ---- Death rates ------------------------------------------------------------------------------ */

/* Value of a table, and that of a state of date 1. */
static void table_is_worth(struct input in, const uint16_t *table, uint64_t expected,
                           size_t account, size_t guarantee, uint64_t of_state)
{
    struct followed f = exact(in, table, NULL);
    struct told t;
    struct lent work;
    same("value_table: number", value_table(&f, &t, &work), GMWB_SUCCESS);
    same("value_table: value", t.value, expected);
    same("value_table: value of the state",
         ((uint64_t *)start(work))[entry_of(in.terms, account, guarantee)], of_state);
    take_back(work);
}

/*
 * Nothing is drawn on P's decision date, as under its dynamic table: at (15, 10), worth 160,000 to a
 * living holder, death pays 150,000. The first rate has no part in that state's value, the last none
 * in any, since death pays what maturity does.
 */
static void nothing_drawn(void)
{
    about("nothing drawn from P");
    table_is_worth(p_with_rates(2, (uint16_t[]){0, 0}), ZEROS, 130000, 15, 10, 160000);
    table_is_worth(p_with_rates(2, (uint16_t[]){100, 100}), ZEROS, 129950, 15, 10, 160000);
    table_is_worth(p_with_rates(2, (uint16_t[]){2500, 5000}), ZEROS, 128750, 15, 10, 160000);
    table_is_worth(p_with_rates(2, (uint16_t[]){10000, 0}), ZEROS, 125000, 15, 10, 160000);
    table_is_worth(p_with_rates(2, (uint16_t[]){0, 10000}), ZEROS, 130000, 15, 10, 160000);
}

/*
 * Under top 12 nothing is drawn. Death on date 1 pays 10, or 12 and an excess of 18; on date 2 the
 * same from 10, and from 12 it pays 12, or 12 and 24, so that (12, 10) is worth 240,000.
 */
static void death_above_top(void)
{
    struct input in = input_of(UNDER_12, STILL_OR_TRIPLE, 2);
    about("death above top");
    pack_rates(&in, (uint16_t[]){10000, 0, 0}, 3);
    table_is_worth(in, ZEROS, 200000, 12, 10, 360000);
    pack_rates(&in, (uint16_t[]){0, 10000, 0}, 3);
    table_is_worth(in, ZEROS, 310000, 12, 10, 240000);
}

/* ---- Paths ------------------------------------------------------------------------------------ */

static void path_counts(void)
{
    const struct terms c = {10, 5, 20, 5, 0, 1000, 1000000, 0, 0};
    /* The last two would be 5 in 8 and in 16 bits. */
    static const size_t counts[] = {0, 1, 4, 5, 6, 10, 261, 65541};
    for (size_t i = 0; i < COUNT(counts); i++) {
        struct followed f = zeros_on(c);
        f.path_len = counts[i];
        about("path of %lu numbers", (unsigned long)counts[i]);
        bool right = counts[i] == 5;
        walk_answered(&f, right ? GMWB_SUCCESS : GMWB_REFUSED_PATH, right ? 0 : 5);
    }
}

static void path_numbers(void)
{
    const struct terms c = {10, 5, 20, 5, 0, 1000, 1000000, 0, 0};
    uint16_t path[5] = {0};
    struct followed f = zeros_on(c);
    f.path = path;
    static const uint16_t none[] = {2, 3, 256, 257, 65535};
    for (size_t i = 0; i < 5; i++) {
        about("return number at index %lu", (unsigned long)i);
        path[i] = 1;
        walk_answered(&f, GMWB_SUCCESS, 0);
        for (size_t k = 0; k < COUNT(none); k++) {
            path[i] = none[k];
            walk_answered(&f, GMWB_REFUSED_PATH, i);
        }
        path[i] = 0;
    }
    about("return numbers at indexes 1 and 3");
    path[1] = path[3] = 2;
    walk_answered(&f, GMWB_REFUSED_PATH, 1);
}

/* A return that changes nothing and a table of zeros keep the walk in state (10, 10). */
static void bad_entries_met(void)
{
    const struct terms c = {10, 5, 20, 5, 0, 1000, 1000000, 0, 0};
    const struct fund_return still[1] = {{10000, 10000}};
    uint16_t table[TABLE_ROOM] = {0};
    struct followed f = exact(input_of(c, still, 1), table, FIRST_RETURN);
    for (uint64_t date = 1; date < c.dates; date++) {
        size_t met = (size_t)(date - 1) * layer_of(c) + entry_of(c, 10, 10);
        about("walk on date %" PRIu64, date);
        table[met] = 11;
        walk_answered(&f, GMWB_REFUSED_AMOUNT, date);
        table[met] = 0;
        /* Entries beside it are not met, and not checked. */
        table[met - 1] = table[met + 1] = 65535;
        walk_answered(&f, GMWB_SUCCESS, 0);
        table[met - 1] = table[met + 1] = 0;
    }
    about("walk on dates 2 and 4");
    table[layer_of(c) + entry_of(c, 10, 10)] = 65535;
    table[3 * layer_of(c) + entry_of(c, 10, 10)] = 65535;
    walk_answered(&f, GMWB_REFUSED_AMOUNT, 2);
}

/* ---- Memory that is shared -------------------------------------------------------------------- */

/* In words of 16 bits: the table of P3, two returns, the record. */
enum { ONE_TABLE = 2 * 21 * 11, ONE_LIST = 4 };
enum { ONE_BLOCK = ONE_TABLE + ONE_LIST + GMWB_RECORD_BYTES / 2 };

/*
 * The list ends in the first 8 bytes of the record, which are two returns of weights 5 and 3. Both
 * stand in the table's slice, behind the entries it needs. The path is the table's first entries,
 * the rates are the list's first three numbers.
 */
static struct followed in_one_block(uint16_t *block)
{
    const struct fund_return first[2] = {{5000, 4992}, {9000, 5000}};
    struct input in = input_of(P3, first, 2);
    pack_rates(&in, (uint16_t[]){5000, 4992, 9000}, 3);
    memcpy(in.list + in.list_len, in.record, 2 * GMWB_RETURN_BYTES);
    in.list_len += 2 * GMWB_RETURN_BYTES;
    for (size_t i = 0; i < ONE_TABLE; i++)
        block[i] = largest_at(P3, i) / 2;
    block[1] = block[2] = 1;
    memcpy(block + ONE_TABLE, in.list, ONE_LIST * sizeof *block);
    memcpy(block + ONE_TABLE + ONE_LIST, in.record, GMWB_RECORD_BYTES);
    struct followed f = exact(in, block, block);
    f.table_room = f.table_len = ONE_BLOCK;
    return f;
}

static void value_table_in(const struct followed *f, const uint8_t *list, const uint8_t *record)
{
    struct told t, s = untold();
    struct lent apart, work = lend(f->work_len, sizeof(uint64_t));
    same("value_table: number", value_table(f, &t, &apart), GMWB_SUCCESS);
    same("value_table: number in one block",
         gmwb_value_table(record, f->in.record_len, list, f->in.list_len, list, f->in.rates_len,
                          start(work), f->work_len, f->table, f->table_len,
                          &s.place, &s.value, &s.margin),
         GMWB_SUCCESS);
    same("value_table: value in one block", s.value, t.value);
    same_slice("value_table: working slice in one block", work, apart, sizeof(uint64_t));
    take_back(apart);
    take_back(work);
}

static void walk_in(const struct followed *f, const uint8_t *list, const uint8_t *record)
{
    uint64_t place;
    struct lent apart, cash = lend(f->cash_len, sizeof(uint64_t));
    same("walk: number", walk(f, &place, &apart), GMWB_SUCCESS);
    same("walk: number in one block",
         gmwb_walk(record, f->in.record_len, list, f->in.list_len, f->table, f->table_len, f->path,
                   f->path_len, start(cash), f->cash_len, &place),
         GMWB_SUCCESS);
    same_slice("walk: cash in one block", cash, apart, sizeof(uint64_t));
    take_back(apart);
    take_back(cash);
}

static void value_in(const struct followed *f, const uint8_t *list, const uint8_t *record)
{
    struct told t, s = untold();
    struct lent apart, work = lend(f->work_len, sizeof(uint64_t));
    uint16_t *recorded_apart = recorded(&f->in, GMWB_DYNAMIC, &t, &apart), table[ONE_TABLE];
    same("value: number in one block",
         gmwb_value(record, f->in.record_len, list, f->in.list_len, list, f->in.rates_len,
                    GMWB_DYNAMIC, start(work), f->work_len, table, ONE_TABLE,
                    &s.place, &s.value, &s.margin),
         GMWB_SUCCESS);
    same("value: value in one block", s.value, t.value);
    same_slice("value: working slice in one block", work, apart, sizeof(uint64_t));
    holds("value: table in one block", memcmp(table, recorded_apart, sizeof table) == 0);
    take_back(apart);
    take_back(work);
    free(recorded_apart);
}

/* "Slices passed as const ... may share memory with one another." */
static void shared_memory(void)
{
    uint16_t block[ONE_BLOCK];
    struct followed f = in_one_block(block);
    const uint8_t *list = (const uint8_t *)(block + ONE_TABLE);
    const uint8_t *record = (const uint8_t *)(block + ONE_TABLE + ONE_LIST);
    about("slices in one block");
    value_table_in(&f, list, record);
    walk_in(&f, list, record);
    value_in(&f, list, record);
}

/* ---- Every path ------------------------------------------------------------------------------- */

enum { PATH_DATES = 3, BRANCHES = 3, PATHS = 27 };

static wide power(wide base, size_t exponent)
{
    wide result = 1;
    for (size_t i = 0; i < exponent; i++)
        result *= base;
    return result;
}

/* Discounts and death rates are whole thousandths here, so that no number passes 128 bits. */
static void in_thousandths(struct input *in)
{
    struct terms c = in->terms;
    uint16_t rates[PATH_DATES];
    c.discount = (c.discount + 999) / 1000 * 1000;
    pack_record(in, c);
    for (size_t i = 0; i < PATH_DATES; i++)
        rates[i] = (uint16_t)(get(in->rates + GMWB_RATE_BYTES * i, GMWB_RATE_BYTES) / 10 * 10);
    pack_rates(in, rates, PATH_DATES);
}

/* Death on a date pays what maturity on it would: the last cash of the walk with so many dates. */
static uint64_t paid_at_death(const struct followed *f, uint16_t date)
{
    struct followed ended = *f;
    struct terms c = f->in.terms;
    c.dates = date;
    pack_record(&ended.in, c);
    ended.path_len = ended.cash_len = date;
    uint64_t place;
    struct lent cash;
    same("walk: number up to death", walk(&ended, &place, &cash), GMWB_SUCCESS);
    uint64_t paid = ((uint64_t *)start(cash))[date - 1];
    take_back(cash);
    return paid;
}

/* One path's part in the expected cash, times 10^30: the cash of each date, or death in its period. */
static wide weighed(const struct followed *f, const uint64_t *cash)
{
    const struct input *in = &f->in;
    wide chance = 1, alive = 1, sum = 0, discount = in->terms.discount / 1000;
    for (uint16_t i = 0; i < PATH_DATES; i++) {
        wide rate = get(in->rates + GMWB_RATE_BYTES * i, GMWB_RATE_BYTES) / 10;
        wide paid = rate * paid_at_death(f, i + 1) + (1000 - rate) * cash[i];
        chance *= get(in->list + GMWB_RETURN_BYTES * f->path[i] + 2, 2);
        sum += alive * paid * power(discount, i + 1u) * power(1000000, PATH_DATES - 1u - i);
        alive *= 1000 - rate;
    }
    return chance * sum;
}

static bool all_zero(const uint8_t *bytes, size_t length)
{
    uint8_t any = 0;
    for (size_t i = 0; i < length; i++)
        any |= bytes[i];
    return any == 0;
}

/*
 * The value of a table is the expected discounted cash of its walks, each up to maturity or death,
 * but for rounding: down, on each of N dates once for the share of death, where there is one, and
 * once for the discounted sum, by less than one ten-thousandth each time. So the exact expectation
 * lies at or above the value and less than 2 x N above it, less than N with zero rates.
 *
 * It is exact here in whole numbers: a chance is a product of 3 weights over 10^12, of being alive
 * one of 3 numbers over 10^9, a discount one of up to 3 over 10^9, and all is kept times 10^30. With
 * accounts up to 30 a walk pays at most 7 x 300,000 (2 x N + 1 tops), so that no sum passes
 * 21 x 10^35, below 2^127.
 */
static void every_path(const struct input *in, const uint16_t *table)
{
    struct told t;
    struct lent work, cash;
    wide sum = 0;
    uint16_t path[PATH_DATES];
    struct followed f = exact(*in, table, path);
    same("value_table: number", value_table(&f, &t, &work), GMWB_SUCCESS);
    take_back(work);
    for (unsigned k = 0; k < PATHS; k++) {
        uint64_t place;
        path[0] = (uint16_t)(k / 9);
        path[1] = (uint16_t)(k / 3 % 3);
        path[2] = (uint16_t)(k % 3);
        same("walk: number", walk(&f, &place, &cash), GMWB_SUCCESS);
        sum += weighed(&f, start(cash));
        take_back(cash);
    }
    wide one = power(10, 30), roundings = PATH_DATES;
    if (!all_zero(in->rates, in->rates_len))
        roundings *= 2;
    holds("expected cash at or above the value", sum >= t.value * one);
    holds("expected cash less than the roundings above it", sum < (t.value + roundings) * one);
}

/* A table of any amounts from the dynamic sets. */
static void fill_table(struct terms c, uint16_t *table)
{
    for (size_t i = 0; i < table_of(c); i++)
        table[i] = one_in(8) ? largest_at(c, i) : (uint16_t)upto(largest_at(c, i));
}

static void every_path_by_hand(void)
{
    static const uint16_t steps[3] = {0, 300, 10000};
    static const uint16_t rates[3][PATH_DATES] = {{0, 0, 0}, {120, 350, 580}, {4000, 0, 10000}};
    const struct fund_return returns[BRANCHES] = {{6000, 2500}, {10500, 4500}, {16000, 3000}};
    for (size_t i = 0; i < 9; i++) {
        const struct terms c = {10, 4, 20, PATH_DATES, 150, 800, 970000, steps[i % 3], 0};
        struct input in = input_of(c, returns, BRANCHES);
        pack_rates(&in, rates[i / 3], PATH_DATES);
        about("every path of a contract, step %u, rates from %u", (unsigned)steps[i % 3],
              (unsigned)rates[i / 3][0]);
        for (uint64_t behaviour = 0; behaviour <= 2; behaviour++) {
            struct told t;
            struct lent work;
            uint16_t *table = recorded(&in, behaviour, &t, &work);
            every_path(&in, table);
            take_back(work);
            free(table);
        }
    }
}

/* ---- Random rounds ---------------------------------------------------------------------------- */

enum { TOP = 30, DATES = 6, RETURNS = 8, RANDOM_ROOM = (DATES - 1) * 31 * 31 };

static void every_path_at_random(uint64_t round)
{
    uint16_t table[RANDOM_ROOM];
    struct terms c = random_terms(TOP, TOP, DATES);
    c.dates = PATH_DATES;
    struct input in = random_input(c, BRANCHES);
    in_thousandths(&in);
    fill_table(c, table);
    about("every path, round %" PRIu64, round);
    every_path(&in, table);
}

static size_t random_length(size_t needed)
{
    if (one_in(16))
        return needed == 0 ? 0 : (size_t)upto(needed - 1);
    return needed + (size_t)(one_in(2) ? 0 : upto(9));
}

/* A few entries get any number; a walk seldom meets one, so some tables are bad throughout. */
static void damage_table(struct terms c, uint16_t *table)
{
    size_t entries = table_of(c);
    if (entries > 0 && one_in(6)) {
        size_t entry = (size_t)upto(entries - 1);
        table[entry] = (uint16_t)(one_in(2) ? largest_at(c, entry) + UINT64_C(1) : upto(65535));
    }
    if (one_in(8))
        for (size_t i = 0; i < entries; i++)
            table[i] = (uint16_t)(table[i] + (one_in(3) ? upto(TOP) : 0));
}

/* Walks with an excess: random rounds without them would show little. */
static uint64_t with_excess;

/*
 * An accepted walk, booking by booking: the cash of a date is the booking's, or the maturity value,
 * and 10,000 x the excess of the return that led there. "While no amount on a walk passes m, amounts
 * withdrawn so far plus the guarantee equal the premium": an excess is no withdrawal.
 */
static void along_bookings(const struct followed *f, const uint64_t *cash)
{
    struct terms c = terms_in(&f->in);
    struct lent table = lend_table(f), path = lend_path(f);
    uint64_t balance = c.premium, guarantee = c.premium, drawn = 0, excess = 0;
    bool within_m = true;
    for (uint64_t date = 1; date <= c.dates; date++) {
        size_t number = ((uint16_t *)start(path))[date - 1];
        uint16_t factor = (uint16_t)get(f->in.list + GMWB_RETURN_BYTES * number, 2);
        uint64_t lifted = lifted_account(c, balance, factor);
        uint64_t account = smaller(lifted, c.top), paid = 10000 * larger(account, guarantee);
        if (date < c.dates) {
            uint8_t out[GMWB_BOOKING_BYTES];
            size_t entry = (size_t)(date - 1) * layer_of(c) + entry_of(c, account, guarantee);
            uint64_t amount = ((uint16_t *)start(table))[entry];
            same("walk: booking", gmwb_book(f->in.record, f->in.record_len, date, account,
                                            guarantee, amount, out, sizeof out), GMWB_SUCCESS);
            within_m = within_m && amount <= free_amount(c, guarantee);
            paid = get(out, 4);
            balance = get(out + 8, 2);
            guarantee = get(out + 10, 2);
            drawn += amount;
        }
        excess += excess_over(c, lifted);
        same("walk: cash by booking and excess", cash[date - 1],
             paid + 10000 * excess_over(c, lifted));
        if (within_m)
            same("walk: withdrawn and guarantee", drawn + guarantee, c.premium);
    }
    with_excess += excess > 0;
    take_back(table);
    take_back(path);
}

static void random_round(uint64_t round, uint64_t *tables, uint64_t *walks)
{
    uint16_t table[RANDOM_ROOM], path[DATES];
    char record[HEX_ROOM], list[HEX_ROOM], rates[HEX_ROOM];
    struct terms c = random_terms(TOP, TOP, DATES);
    size_t count = (size_t)between(1, RETURNS);
    fill_table(c, table);
    damage_table(c, table);
    for (size_t i = 0; i < c.dates; i++)
        path[i] = (uint16_t)(one_in(64) ? upto(count + 2) : upto(count - 1));
    struct followed f = exact(random_input(c, count), table, path);
    f.table_len = random_length(f.table_len);
    f.work_len = random_length(f.work_len);
    f.cash_len = random_length(f.cash_len);
    if (one_in(16))
        f.path_len = (size_t)upto(DATES + 1);
    damage_some(&f.in);
    about("round %" PRIu64 ": record %s of %lu bytes, list %s of %lu, rates %s of %lu, "
          "table of %lu, path of %lu",
          round, hex(record, f.in.record, sizeof f.in.record), (unsigned long)f.in.record_len,
          hex(list, f.in.list, f.in.list_len), (unsigned long)f.in.list_len,
          hex(rates, f.in.rates, f.in.rates_len), (unsigned long)f.in.rates_len,
          (unsigned long)f.table_len, (unsigned long)f.path_len);
    struct told t;
    struct lent work, cash;
    uint64_t place;
    uint32_t number = value_table(&f, &t, &work);
    tally(tables, number);
    take_back(work);
    number = walk(&f, &place, &cash);
    tally(walks, number);
    if (number == 0)
        along_bookings(&f, start(cash));
    take_back(cash);
}

static void random_rounds(struct rounds rounds)
{
    uint64_t tables[NUMBERS] = {0}, walks[NUMBERS] = {0};
    static const uint32_t by_table[] = {0, 1, 2, 3, 4, 5, 6, 7, 8, 9, 11, 14, 15, 17, 18};
    static const uint32_t by_walk[] = {0, 1, 2, 3, 4, 5, 6, 7, 8, 9, 11, 13, 14, 15};
    for (uint64_t round = 0; round < one_in_rounds(rounds, 1, 1); round++)
        random_round(round, tables, walks);
    for (uint64_t round = 0; round < one_in_rounds(rounds, 20, 1); round++)
        every_path_at_random(round);
    all_came(rounds, tables, met, by_table, COUNT(by_table));
    all_came(rounds, walks, met_by_walk, by_walk, COUNT(by_walk));
    if (rounds.usual)
        holds("walks with an excess", with_excess > 200);
}

int main(int argc, char **argv)
{
    struct rounds rounds = rounds_from(argc, argv, 2000);
    bad_entries();
    bad_entry_beyond();
    slice_lengths();
    recorded_tables();
    large_values();
    each_record(input_answered);
    each_list(input_answered);
    record_faults_in_order(ordered_case);
    list_faults_in_order(ordered_case);
    each_rates_length(rates_case);
    each_rate(rates_case);
    rates_faults_in_order(ordered_rates_case);
    no_rates();
    later_checks_in_order();
    cash_by_hand();
    falling_rates();
    drawn_late();
    excess_at_decision_date();
    excess_at_maturity();
    excess_on_first_return();
    excess_without_penalty();
    largest_payouts();
    nothing_drawn();
    death_above_top();
    path_counts();
    path_numbers();
    bad_entries_met();
    shared_memory();
    every_path_by_hand();
    random_rounds(rounds);
    return verdict("table_walk");
}
