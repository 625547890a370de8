/*
 * gmwb_version, gmwb_sizes and the functions of the header itself. Sizes: every boundary of a
 * record, the order of the checks, the least and the largest contract, random ones against the
 * second program, and slices of these sizes lent to the engine. Packing, reading and texts: against
 * the packing of the tests and against the engine, with numbers that their fields do not hold.
 * Terms in force: against the whole contract, date by date.
 */
#include "contracts.h"

/* ---- Version ---------------------------------------------------------------------------------- */

static void version(void)
{
    about("version");
    same("of header and archive", gmwb_version(), GMWB_VERSION);
}

/* ---- Sizes ------------------------------------------------------------------------------------ */

/* What gmwb_sizes writes, with words around that it must not touch. */
struct sizes {
    uint64_t before, work, after_work, table, after_table, map, after;
};

/* What the calls of this run answered. */
static uint64_t met[NUMBERS];

/* Makes the call on both programs; gives the number. */
static uint32_t sizes_of(const struct input *in, struct sizes *sizes)
{
    struct lent record = lend_record(in);
    struct sizes s, t, u;
    memset(&s, 0xA5, sizeof s);
    t = u = s;
    uint32_t number = gmwb_sizes(start(record), in->record_len, &s.work, &s.table, &s.map);
    uint32_t expected = second_sizes(start(record), in->record_len, &t.work, &t.table, &t.map);
    tally(met, number);
    same("number against the second program", number, expected);
    same("number against a check", number, gmwb_check(start(record), in->record_len));
    same("work against the second program", s.work, t.work);
    same("table against the second program", s.table, t.table);
    same("map against the second program", s.map, t.map);
    holds("only the three sizes written", s.before == u.before && s.after_work == u.after_work &&
          s.after_table == u.after_table && s.after == u.after);
    take_back(record);
    *sizes = s;
    return number;
}

static void sized(const struct input *in, uint32_t number)
{
    struct sizes s;
    struct terms c = terms_in(in);
    same("number", sizes_of(in, &s), number);
    same("work", s.work, number == 0 ? work_of(c) : 0);
    same("table", s.table, number == 0 ? table_of(c) : 0);
    same("map", s.map, number == 0 ? map_of(c) : 0);
}

static void record_case(const struct input *in, uint32_t number, uint64_t place)
{
    (void)place;
    sized(in, number);
}

/* Worked by hand. 231 entries take 4 words; 4,001 x 4,001 is 16,008,001. */
static void known_sizes(void)
{
    static const struct {
        uint16_t premium, top, dates;
        uint64_t work, table, map;
    } known[] = {
        {10, 20, 1, 462, 0, 0},  {10, 20, 2, 462, 231, 4}, {10, 20, 3, 462, 462, 8},
        {7, 7, 2, 128, 64, 1},   {4, 12, 2, 130, 65, 2},   {6, 8, 2, 126, 63, 1},
        {1, 1, 1, 8, 0, 0},      {1, 1, 40, 8, 156, 3},    {4000, 4000, 1, 32016002, 0, 0},
        {4000, 4000, 40, 32016002, 624312039, 9754876},
    };
    for (size_t i = 0; i < COUNT(known); i++) {
        const struct terms c = {known[i].premium, 1, known[i].top, known[i].dates, 0, 0, 1, 0, 0};
        struct input in = input_of(c, P_RETURNS, 2);
        struct sizes s;
        about("sizes of premium %u, top %u, N %u", (unsigned)c.premium, (unsigned)c.top,
              (unsigned)c.dates);
        same("number", sizes_of(&in, &s), GMWB_SUCCESS);
        same("work", s.work, known[i].work);
        same("table", s.table, known[i].table);
        same("map", s.map, known[i].map);
    }
}

static void no_record(void)
{
    uint64_t work = 1, table = 1, map = 1;
    about("no record");
    same("number", gmwb_sizes(NULL, 0, &work, &table, &map), GMWB_REFUSED_RECORD_LENGTH);
    same("sizes", work | table | map, 0);
}

static void random_sizes(uint64_t round, uint64_t *came)
{
    struct terms c = one_in(2) ? random_terms(30, 30, 6) : random_terms(4000, 4000, 40);
    struct input in = input_of(c, P_RETURNS, 2);
    for (uint64_t k = one_in(2) ? between(1, 2) : 0; k > 0; k--)
        damage_record(&in);
    char text[HEX_ROOM];
    struct sizes s;
    about("round %" PRIu64 ": sizes of record %s of %lu bytes", round,
          hex(text, in.record, sizeof in.record), (unsigned long)in.record_len);
    uint32_t number = sizes_of(&in, &s);
    tally(came, number);
    sized(&in, number);
}

/* Slices of these sizes are long enough, and none of them is with an entry less. */
static void sizes_lent(uint64_t round)
{
    struct input in = random_input(random_terms(12, 12, 4), (size_t)between(1, 4));
    struct sizes s;
    about("round %" PRIu64 ": slices of the sizes told", round);
    same("number", sizes_of(&in, &s), GMWB_SUCCESS);
    for (uint64_t shorter = 0; shorter <= 3; shorter++) {
        const uint64_t lengths[4] = {0, s.work, s.table, s.map};
        if (shorter > 0 && lengths[shorter] == 0)
            continue;
        size_t work_len = s.work - (shorter == 1), table_len = s.table - (shorter == 2);
        size_t map_len = s.map - (shorter == 3);
        struct lent work = lend(work_len, sizeof(uint64_t)), table = lend(table_len, 2);
        struct lent map = lend(map_len, sizeof(uint64_t));
        struct told t = untold();
        uint32_t number = gmwb_value_map(in.record, in.record_len, in.list, in.list_len, in.rates,
                                         in.rates_len, GMWB_MIXED, start(work), work_len,
                                         start(table), table_len, start(map), map_len, &t.place,
                                         &t.value, &t.margin, &t.count);
        same("number with slices of these sizes", number,
             shorter == 0 ? GMWB_SUCCESS : shorter == 3 ? GMWB_REFUSED_MAP : GMWB_REFUSED_SLICE);
        take_back(work);
        take_back(table);
        take_back(map);
    }
}

/* ---- Packing ---------------------------------------------------------------------------------- */

enum { FIELDS = 8 };

/* In the order of the record, with what refuses one that is too large. */
static const struct {
    const char *name;
    size_t offset, bytes;
    uint32_t number;
} PLACES[FIELDS] = {
    {"premium", 0, 2, 2}, {"level", 2, 2, 3},    {"top", 4, 2, 2},       {"dates", 6, 2, 4},
    {"fee", 8, 2, 5},     {"penalty", 10, 2, 5}, {"discount", 12, 4, 6}, {"step", 16, 2, 15},
};

/* Above what 16 or 32 bits hold; those from the fourth on would be accepted in fewer bits. */
static const uint64_t WIDE[] = {
    UINT64_MAX, UINT64_C(1) << 32, UINT64_C(1) << 63, (UINT64_C(1) << 32) + 10,
    (UINT64_C(1) << 32) + 2, (UINT64_C(1) << 63) + 5, (UINT64_C(1) << 48) + 20,
};

/* .. and for fields of 16 bits */
static const uint64_t WIDE_16[] = {65536, 65537, 65538, 65541, 65546, 65556, 131072};

static struct gmwb_terms terms_of(const uint64_t *fields)
{
    struct gmwb_terms t = {fields[0], fields[1], fields[2], fields[3],
                           fields[4], fields[5], fields[6], fields[7]};
    return t;
}

static struct gmwb_terms wide_terms(struct terms c)
{
    const uint64_t fields[FIELDS] = {c.premium, c.level,   c.top,      c.dates,
                                     c.fee,     c.penalty, c.discount, c.step};
    return terms_of(fields);
}

/* The engine's number for the record that the header packs. */
static uint32_t packed_and_checked(struct gmwb_terms terms)
{
    struct lent record = lend(GMWB_RECORD_BYTES, 1);
    gmwb_pack_record(&terms, start(record));
    uint32_t number = gmwb_check(start(record), GMWB_RECORD_BYTES);
    untouched_from("bytes around the record", record, GMWB_RECORD_BYTES);
    take_back(record);
    return number;
}

/* Each field of P in turn, in 64 bits. */
static void wide_field(size_t field, uint64_t number)
{
    uint64_t fields[FIELDS] = {10, 5, 20, 2, 0, 1000, 1000000, 0};
    fields[field] = number;
    about("%s of %" PRIu64 " packed", PLACES[field].name, number);
    same("number", packed_and_checked(terms_of(fields)), PLACES[field].number);
}

static void wide_fields(void)
{
    about("P packed");
    same("number", packed_and_checked(wide_terms(P)), GMWB_SUCCESS);
    for (size_t field = 0; field < FIELDS; field++) {
        for (size_t i = 0; i < COUNT(WIDE); i++)
            wide_field(field, WIDE[i]);
        for (size_t i = 0; i < COUNT(WIDE_16) && PLACES[field].bytes == 2; i++)
            wide_field(field, WIDE_16[i]);
    }
}

/* Any number of 64 bits, or one near what a field holds. */
static uint64_t any_number(void)
{
    switch (upto(5)) {
    case 0: return random64();
    case 1: return between(65534, 65537);
    case 2: return between(UINT32_MAX - UINT64_C(1), UINT32_MAX + UINT64_C(2));
    case 3: return UINT64_MAX - upto(1);
    default: return upto(10001);
    }
}

/* What a field of so many bytes holds of a number. */
static uint64_t held(uint64_t number, size_t bytes)
{
    return smaller(number, bytes == 2 ? UINT16_MAX : UINT32_MAX);
}

/* Against the tests' own packing: any numbers, and terms as they are. */
static void random_record(uint64_t round)
{
    uint64_t fields[FIELDS];
    uint8_t expected[GMWB_RECORD_BYTES] = {0}, packed[GMWB_RECORD_BYTES];
    about("round %" PRIu64 ": record packed", round);
    for (size_t i = 0; i < FIELDS; i++) {
        fields[i] = any_number();
        put(expected + PLACES[i].offset, PLACES[i].bytes, held(fields[i], PLACES[i].bytes));
    }
    struct gmwb_terms any = terms_of(fields);
    memset(packed, 0xA5, sizeof packed);
    gmwb_pack_record(&any, packed);
    holds("any numbers", memcmp(packed, expected, sizeof packed) == 0);
    struct input in = input_of(random_terms(4000, 4000, 40), P_RETURNS, 2);
    struct gmwb_terms terms = wide_terms(in.terms);
    gmwb_pack_record(&terms, packed);
    holds("terms", memcmp(packed, in.record, sizeof packed) == 0);
}

static void random_list(uint64_t round)
{
    enum { MOST = 9 };
    struct gmwb_return returns[MOST];
    uint64_t rates[MOST];
    uint8_t list[GMWB_RETURN_BYTES * MOST], bytes[GMWB_RATE_BYTES * MOST];
    size_t count = (size_t)upto(MOST);
    struct lent packed = lend(GMWB_RETURN_BYTES * count, 1);
    struct lent packed_rates = lend(GMWB_RATE_BYTES * count, 1);
    about("round %" PRIu64 ": %lu returns and rates packed", round, (unsigned long)count);
    for (size_t i = 0; i < count; i++) {
        returns[i].factor = any_number();
        returns[i].weight = any_number();
        rates[i] = any_number();
        put(list + GMWB_RETURN_BYTES * i, 2, held(returns[i].factor, 2));
        put(list + GMWB_RETURN_BYTES * i + 2, 2, held(returns[i].weight, 2));
        put(bytes + GMWB_RATE_BYTES * i, 2, held(rates[i], 2));
    }
    gmwb_pack_list(returns, count, start(packed));
    gmwb_pack_rates(rates, count, start(packed_rates));
    holds("returns", memcmp(start(packed), list, GMWB_RETURN_BYTES * count) == 0);
    holds("rates", memcmp(start(packed_rates), bytes, GMWB_RATE_BYTES * count) == 0);
    untouched_from("bytes around the list", packed, GMWB_RETURN_BYTES * count);
    untouched_from("bytes around the rates", packed_rates, GMWB_RATE_BYTES * count);
    take_back(packed);
    take_back(packed_rates);
}

/* P's lists with numbers that their fields do not hold: what the engine answers. */
static void lists_answered(const struct gmwb_return *returns, const uint64_t *rates,
                           uint32_t number, uint64_t place)
{
    struct input in = input_p();
    struct lent work = lend(work_of(P), sizeof(uint64_t));
    struct told t = untold();
    gmwb_pack_list(returns, 2, in.list);
    gmwb_pack_rates(rates, 2, in.rates);
    same("number", gmwb_value_no_table(in.record, in.record_len, in.list, in.list_len, in.rates,
                                       in.rates_len, GMWB_DYNAMIC, start(work), work_of(P),
                                       &t.place, &t.value, &t.margin), number);
    same("place", t.place, place);
    if (number == 0)
        same("value", t.value, 128750);
    take_back(work);
}

static void wide_lists(void)
{
    struct gmwb_return returns[2] = {{5000, 5000}, {15000, 5000}};
    uint64_t rates[2] = {2500, 5000};
    about("P's lists packed");
    lists_answered(returns, rates, GMWB_SUCCESS, 0);
    for (size_t i = 0; i < 2 * COUNT(WIDE); i++) {
        uint64_t number = i < COUNT(WIDE) ? WIDE[i] : WIDE_16[i - COUNT(WIDE)];
        for (size_t k = 0; k < 2; k++) {
            uint64_t *fields[3] = {&returns[k].factor, &returns[k].weight, &rates[k]};
            for (size_t field = 0; field < 3; field++) {
                uint64_t kept = *fields[field];
                *fields[field] = number;
                about("field %lu of list record %lu: %" PRIu64, (unsigned long)field,
                      (unsigned long)k, number);
                lists_answered(returns, rates, field < 2 ? 8 : 18, k);
                *fields[field] = kept;
            }
        }
    }
}

/* ---- Reading a booking ------------------------------------------------------------------------ */

static void same_booking(struct gmwb_booking b, const uint8_t *out)
{
    same("cash", b.cash, get(out, 4));
    same("penalty", b.penalty, get(out + 4, 4));
    same("balance", b.balance, get(out + 8, 2));
    same("guarantee", b.guarantee, get(out + 10, 2));
}

static void bookings_read(void)
{
    uint8_t out[GMWB_BOOKING_BYTES], ones[GMWB_BOOKING_BYTES];
    struct input in = input_p();
    about("case 8 read");
    same("number", gmwb_book(in.record, in.record_len, 1, 15, 10, 6, out, sizeof out), 0);
    struct gmwb_booking b = gmwb_read_booking(out);
    same("cash", b.cash, 59000);
    same("penalty", b.penalty, 1000);
    same("balance", b.balance, 9);
    same("guarantee", b.guarantee, 4);
    about("largest penalty read");
    in = input_of((struct terms){4000, 1, 4000, 2, 0, 10000, 1, 0, 0}, P_RETURNS, 2);
    same("number",
         gmwb_book(in.record, in.record_len, 1, 4000, 4000, 4000, out, sizeof out), 0);
    same("penalty", gmwb_read_booking(out).penalty, 39990000);
    about("bytes of all ones read");
    memset(ones, 0xFF, sizeof ones);
    same_booking(gmwb_read_booking(ones), ones);
}

static void random_booking(uint64_t round)
{
    struct terms c = random_terms(4000, 4000, 40);
    c.dates = (uint16_t)larger(c.dates, 2);
    struct input in = input_of(c, P_RETURNS, 2);
    uint64_t account = upto(c.top), guarantee = upto(c.premium);
    uint64_t amount = upto(larger(account, free_amount(c, guarantee)));
    uint8_t any[GMWB_BOOKING_BYTES];
    struct lent out = lend(GMWB_BOOKING_BYTES, 1);
    about("round %" PRIu64 ": booking read", round);
    same("number", gmwb_book(in.record, in.record_len, between(1, c.dates - UINT64_C(1)), account,
                             guarantee, amount, start(out), GMWB_BOOKING_BYTES), 0);
    same_booking(gmwb_read_booking(start(out)), start(out));
    take_back(out);
    for (size_t i = 0; i < sizeof any; i++)
        any[i] = (uint8_t)random64();
    same_booking(gmwb_read_booking(any), any);
}

/* ---- Texts ------------------------------------------------------------------------------------ */

static void texts(void)
{
    static const uint32_t none[] = {NUMBERS, NUMBERS + 1, 255, 256, 65536, UINT32_C(1) << 31,
                                    UINT32_MAX};
    const char *unknown = gmwb_refusal_text(none[0]);
    for (uint32_t n = 0; n < NUMBERS + COUNT(none); n++) {
        uint32_t number = n < NUMBERS ? n : none[n - NUMBERS];
        const char *text = gmwb_refusal_text(number);
        about("text of %" PRIu32, number);
        holds("there is one", text != NULL && strlen(text) > 0);
        holds("one line", text != NULL && strcspn(text, "\r\n\t") == strlen(text));
        for (uint32_t k = 0; k < n && k < NUMBERS; k++)
            holds("no other's", strcmp(text, gmwb_refusal_text(k)) != 0);
        if (n >= NUMBERS)
            holds("that of unknown numbers", strcmp(text, unknown) == 0);
    }
}

/* ---- Terms in force --------------------------------------------------------------------------- */

__extension__ typedef unsigned __int128 wide;

/* Any terms and any date, against products that do not wrap. */
static void any_in_force(uint64_t round)
{
    const uint64_t fields[FIELDS] = {random64(), random64(), random64(), any_number(),
                                     random64(), any_number(), random64(), any_number()};
    struct gmwb_terms terms = terms_of(fields);
    uint64_t date = one_in(2) ? upto(smaller(terms.dates, UINT64_MAX - 3) + 2) : any_number();
    struct gmwb_terms later = gmwb_terms_in_force(terms, date);
    about("round %" PRIu64 ": N %" PRIu64 ", penalty %" PRIu64 ", step %" PRIu64 ", date %" PRIu64,
          round, terms.dates, terms.penalty, terms.step, date);
    bool known = date >= 1 && date <= terms.dates;
    wide fallen = (wide)(date - 1) * terms.step;
    same("dates", later.dates, known ? terms.dates - (date - 1) : 0);
    if (known)
        same("penalty", later.penalty,
             fallen < terms.penalty ? terms.penalty - (uint64_t)fallen : 0);
    same("premium", later.premium, terms.premium);
    same("level", later.level, terms.level);
    same("top", later.top, terms.top);
    same("fee", later.fee, terms.fee);
    same("discount", later.discount, terms.discount);
    same("step", later.step, terms.step);
}

/* 2^32 x 2^32 is 0 in 64 bits, and (2^63 + 1) x 2 is 2. */
static void fallen_in_force(void)
{
    struct gmwb_terms terms = wide_terms(P);
    about("penalty steps that pass 64 bits");
    terms.dates = UINT64_MAX;
    terms.step = UINT64_C(1) << 32;
    same("penalty", gmwb_terms_in_force(terms, (UINT64_C(1) << 32) + 1).penalty, 0);
    terms.step = 2;
    same("penalty", gmwb_terms_in_force(terms, (UINT64_C(1) << 63) + 2).penalty, 0);
    same("penalty", gmwb_terms_in_force(terms, 500).penalty, 2);
    same("penalty", gmwb_terms_in_force(terms, 501).penalty, 0);
    same("penalty", gmwb_terms_in_force(terms, 502).penalty, 0);
}

/* P is in force on dates 1 and 2. */
static void dates_in_force(void)
{
    static const uint64_t dates[] = {0, 1, 2, 3, 4, 257, 65537, UINT64_C(4294967297), UINT64_MAX};
    for (size_t i = 0; i < COUNT(dates); i++) {
        about("P in force on date %" PRIu64, dates[i]);
        same("number", packed_and_checked(gmwb_terms_in_force(wide_terms(P), dates[i])),
             dates[i] == 1 || dates[i] == 2 ? GMWB_SUCCESS : GMWB_REFUSED_DATES);
    }
}

/* A valuation of the engine, slices just long enough: under a behaviour, or of a supplied table. */
struct valued {
    struct lent work, table;
};

enum { SUPPLIED = GMWB_DYNAMIC + 1 };

static struct valued valued(const struct input *in, uint64_t behaviour)
{
    struct terms c = terms_in(in);
    struct valued v = {lend(work_of(c), sizeof(uint64_t)), lend(table_of(c), sizeof(uint16_t))};
    struct told t = untold();
    same("number", gmwb_value(in->record, in->record_len, in->list, in->list_len, in->rates,
                              in->rates_len, behaviour, start(v.work), work_of(c), start(v.table),
                              table_of(c), &t.place, &t.value, &t.margin), GMWB_SUCCESS);
    return v;
}

static struct valued supplied(const struct input *in, const uint16_t *amounts)
{
    struct terms c = terms_in(in);
    size_t bytes = table_of(c) * sizeof *amounts;
    struct valued v = {lend(work_of(c), sizeof(uint64_t)), lend_copy(amounts, bytes, bytes)};
    struct told t = untold();
    same("number", gmwb_value_table(in->record, in->record_len, in->list, in->list_len, in->rates,
                                    in->rates_len, start(v.work), work_of(c), start(v.table),
                                    table_of(c), &t.place, &t.value, &t.margin), GMWB_SUCCESS);
    return v;
}

/* The whole contract; the table supplied has any amounts that are admissible. */
static struct valued valued_whole(const struct input *in, uint64_t behaviour)
{
    size_t entries = table_of(in->terms);
    if (behaviour < SUPPLIED)
        return valued(in, behaviour);
    uint16_t *amounts = allocate((entries + 1) * sizeof *amounts);
    for (size_t i = 0; i < entries; i++)
        amounts[i] = (uint16_t)upto(largest_at(in->terms, i));
    struct valued v = supplied(in, amounts);
    free(amounts);
    return v;
}

/* The contract from a date on. */
static struct input in_force(const struct input *in, uint64_t date)
{
    struct input later = *in;
    struct gmwb_terms terms = gmwb_terms_in_force(wide_terms(in->terms), date);
    gmwb_pack_record(&terms, later.record);
    later.rates_len = in->rates_len - GMWB_RATE_BYTES * (date - 1);
    memcpy(later.rates, in->rates + GMWB_RATE_BYTES * (date - 1), later.rates_len);
    return later;
}

/*
 * "an amount is worth its cash plus discount x (sum of weight x value reached) / 10,000,000,000":
 * what the whole contract's amount of a date is worth, `next` being the values of the next date.
 */
static uint64_t worth(const struct input *in, uint64_t date, size_t entry, uint16_t amount,
                      const uint64_t *next)
{
    struct terms c = in->terms;
    uint8_t out[GMWB_BOOKING_BYTES];
    size_t row = (size_t)c.premium + 1;
    same("booking", gmwb_book(in->record, in->record_len, date, entry / row, entry % row, amount,
                              out, sizeof out), GMWB_SUCCESS);
    uint64_t cash = get(out, 4), balance = get(out + 8, 2), guarantee = get(out + 10, 2);
    uint64_t rate = get(in->rates + GMWB_RATE_BYTES * date, 2), sum = 0;
    for (size_t i = 0; i < in->list_len / GMWB_RETURN_BYTES; i++) {
        struct fund_return r = return_at(in, i);
        uint64_t lifted = lifted_account(c, balance, r.factor), excess = excess_over(c, lifted);
        uint64_t account = smaller(lifted, c.top);
        uint64_t value = next[entry_of(c, account, guarantee)] + 10000 * excess;
        uint64_t payment = 10000 * larger(account, guarantee) + 10000 * excess;
        sum += r.weight * (((10000 - rate) * value + rate * payment) / 10000);
    }
    return cash + c.discount * sum / UINT64_C(10000000000);
}

/*
 * The values of a date, from the record in force on it, are what the amounts of the whole
 * contract's table earn by its own rules from the values of the next date; at maturity 10,000 x the
 * larger of W and A. So they are the whole contract's values of that date. The tables recorded are
 * the whole one's.
 */
static void same_in_force(const struct input *in, uint64_t behaviour)
{
    struct terms c = in->terms;
    size_t layer = layer_of(c), row = (size_t)c.premium + 1;
    struct valued whole = valued_whole(in, behaviour), next = {{0}, {0}};
    for (uint64_t date = c.dates; date >= 1; date--) {
        struct input later = in_force(in, date);
        const uint16_t *amounts = (const uint16_t *)start(whole.table) + layer * (date - 1);
        struct valued v = behaviour < SUPPLIED ? valued(&later, behaviour)
                                               : supplied(&later, amounts);
        const uint64_t *values = start(v.work);
        if (behaviour < SUPPLIED)
            holds("amounts from the date on", memcmp(start(v.table), amounts, v.table.bytes) == 0);
        for (size_t i = 0; i < layer; i++)
            same("value of a state", values[i],
                 date == c.dates ? 10000 * larger(i / row, i % row)
                                 : worth(in, date, i, amounts[i], start(next.work)));
        if (date < c.dates) {
            take_back(next.work);
            take_back(next.table);
        }
        next = v;
    }
    same_slice("the record of date 1", next.work, whole.work, sizeof(uint64_t));
    take_back(next.work);
    take_back(next.table);
    take_back(whole.work);
    take_back(whole.table);
}

static void random_in_force(uint64_t round)
{
    struct terms c = random_terms(10, 10, 6);
    struct input in = random_input(c, (size_t)between(1, 4));
    for (uint64_t behaviour = 0; behaviour <= SUPPLIED; behaviour++) {
        char record[HEX_ROOM], list[HEX_ROOM], rates[HEX_ROOM];
        about("round %" PRIu64 ": in force, behaviour %" PRIu64 ", record %s, list %s, rates %s",
              round, behaviour, hex(record, in.record, in.record_len),
              hex(list, in.list, in.list_len), hex(rates, in.rates, in.rates_len));
        same_in_force(&in, behaviour);
    }
}

/* ---- All of it -------------------------------------------------------------------------------- */

static void random_rounds(struct rounds rounds)
{
    uint64_t came[NUMBERS] = {0};
    static const uint32_t numbers[] = {0, 1, 2, 3, 4, 5, 6, 15};
    for (uint64_t round = 0; round < one_in_rounds(rounds, 1, 1); round++) {
        random_sizes(round, came);
        random_record(round);
        random_list(round);
        random_booking(round);
        any_in_force(round);
    }
    for (uint64_t round = 0; round < one_in_rounds(rounds, 50, 1); round++)
        sizes_lent(round);
    for (uint64_t round = 0; round < one_in_rounds(rounds, 50, 2); round++)
        random_in_force(round);
    all_came(rounds, came, met, numbers, COUNT(numbers));
}

int main(int argc, char **argv)
{
    struct rounds rounds = rounds_from(argc, argv, 20000);
    version();
    known_sizes();
    no_record();
    each_record(record_case);
    record_faults_in_order(record_case);
    wide_fields();
    wide_lists();
    bookings_read();
    texts();
    dates_in_force();
    fallen_in_force();
    random_rounds(rounds);
    return verdict("sizes");
}
