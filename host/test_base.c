/*
 * gmwb_check and gmwb_book: the marked cases, penalty rates that fall, every refusal on both sides of
 * its boundary, the order of the checks, and random records and bookings against the second program.
 */
#include "contracts.h"

/* ---- The calls -------------------------------------------------------------------------------- */

struct booking {
    uint64_t date, account, guarantee, amount;
    size_t out_len;
};

/* The fields of a booking buffer. */
struct figures {
    uint64_t cash, penalty, balance, guarantee, zeros;
};

/* What the bookings of this run answered. */
static uint64_t met[NUMBERS];

static uint32_t check_record(const struct input *in)
{
    struct lent record = lend_record(in);
    uint32_t number = gmwb_check(start(record), in->record_len);
    same("check against the second program", number, second_check(start(record), in->record_len));
    take_back(record);
    return number;
}

static struct figures figures_in(const uint8_t *out)
{
    struct figures f = {get(out, 4), get(out + 4, 4), get(out + 8, 2), get(out + 10, 2),
                        get(out + 12, 4)};
    return f;
}

/* Gives the number, and the figures where it is 0. */
static uint32_t book(const struct input *in, struct booking b, struct figures *f)
{
    struct lent record = lend_record(in), out = lend(b.out_len, 1), second = lend(b.out_len, 1);
    uint32_t number = gmwb_book(start(record), in->record_len, b.date, b.account, b.guarantee,
                                b.amount, start(out), b.out_len);
    uint32_t expected = second_book(start(record), in->record_len, b.date, b.account, b.guarantee,
                                    b.amount, start(second), b.out_len);
    same("booking against the second program", number, expected);
    tally(met, number);
    same_slice("buffer against the second program", out, second, 1);
    if (number != 0)
        untouched("buffer and the bytes around it after a refusal", out);
    else {
        untouched_from("bytes around the buffer", out, b.out_len);
        *f = figures_in(start(out));
    }
    take_back(record);
    take_back(out);
    take_back(second);
    return number;
}

/* ---- Marked cases ----------------------------------------------------------------------------- */

static void booked(struct terms c, struct booking b, struct figures expected)
{
    struct input in = input_of(c, P_RETURNS, 2);
    struct figures f = {0, 0, 0, 0, 1};
    same("number", book(&in, b, &f), GMWB_SUCCESS);
    same("cash", f.cash, expected.cash);
    same("penalty", f.penalty, expected.penalty);
    same("balance", f.balance, expected.balance);
    same("guarantee", f.guarantee, expected.guarantee);
    same("zeros", f.zeros, 0);
}

static void refused(struct terms c, struct booking b, uint32_t number)
{
    struct input in = input_of(c, P_RETURNS, 2);
    struct figures f;
    same("number", book(&in, b, &f), number);
}

static void marked_cases(void)
{
    about("case 8");
    booked(P, (struct booking){1, 15, 10, 6, 16}, (struct figures){59000, 1000, 9, 4, 0});
    about("case 9");
    booked(P, (struct booking){1, 15, 10, 15, 16}, (struct figures){140000, 10000, 0, 0, 0});
    about("case 10");
    refused(P, (struct booking){1, 5, 10, 6, 16}, GMWB_REFUSED_AMOUNT);
}

/* Not marked, worked by hand. */
static void other_bookings(void)
{
    about("m above the account");
    booked(P, (struct booking){1, 3, 10, 5, 16}, (struct figures){50000, 0, 0, 5, 0});
    about("account at m, which is no surrender");
    booked(P, (struct booking){1, 5, 10, 5, 16}, (struct figures){50000, 0, 0, 5, 0});
    about("nothing drawn from nothing");
    booked(P, (struct booking){1, 0, 10, 0, 16}, (struct figures){0, 0, 0, 10, 0});
    about("guarantee below the amount");
    booked(P, (struct booking){1, 15, 4, 6, 16}, (struct figures){58000, 2000, 9, 0, 0});
    /* 10 x 4 / 7 is 5.7, less than 10 - 3 */
    about("proportional reset");
    const struct terms low = {10, 1, 20, 2, 0, 1000, 1000000, 0, 0};
    booked(low, (struct booking){1, 7, 10, 3, 16}, (struct figures){28000, 2000, 4, 5, 0});
    about("largest figures");
    const struct terms most = {4000, 1, 4000, 40, 0, 10000, 1, 0, 0};
    booked(most, (struct booking){39, 4000, 4000, 4000, 16},
           (struct figures){10000, 39990000, 0, 0, 0});
    booked(most, (struct booking){39, 4000, 4000, 1, 16},
           (struct figures){10000, 0, 3999, 3999, 0});
    const struct terms whole = {4000, 4000, 4000, 2, 0, 0, 1, 0, 0};
    booked(whole, (struct booking){1, 0, 4000, 4000, 16}, (struct figures){40000000, 0, 0, 0, 0});
}

/* ---- Penalty rates that fall ------------------------------------------------------------------ */

/* "The rate at date i is the record's rate less (i - 1) x step, never below zero." */
static void falling_rates(void)
{
    static const uint16_t steps[3] = {0, 100, 1000};
    static const uint32_t cash[3][3] = {
        {59000, 59000, 59000},
        {59000, 59100, 59200},
        {59000, 60000, 60000},
    };
    for (size_t i = 0; i < 3; i++) {
        const struct terms c = {10, 5, 20, 4, 0, 1000, 1000000, steps[i], 0};
        for (uint64_t date = 1; date <= 3; date++) {
            uint32_t paid = cash[i][date - 1];
            about("6 at (15, 10), step %u, date %" PRIu64, (unsigned)steps[i], date);
            booked(c, (struct booking){date, 15, 10, 6, 16},
                   (struct figures){paid, 60000 - paid, 9, 4, 0});
        }
    }
}

/* The rate reaches zero on a date or between two, and stays there; 8 x 8,192 is 0 in 16 bits. */
static const struct {
    uint16_t penalty, step;
    uint64_t date, rate;
} RATES[] = {
    {1000, 500, 2, 500},
    {1000, 500, 3, 0},
    {1000, 500, 39, 0},
    {1000, 333, 4, 1},
    {1000, 333, 5, 0},
    {1000, 1001, 2, 0},
    {0, 1, 2, 0},
    {10000, 0, 39, 10000},
    {10000, 1, 39, 9962},
    {10000, 263, 39, 6},
    {10000, 264, 39, 0},
    {10000, 8192, 9, 0},
    {10000, 10000, 1, 10000},
    {10000, 10000, 2, 0},
    {10000, 10000, 39, 0},
};

/* 15 drawn at (15, 10) pays the penalty on 10. */
static void rates_at_zero(void)
{
    for (size_t i = 0; i < COUNT(RATES); i++) {
        uint64_t penalty = 10 * RATES[i].rate;
        const struct terms c = {10, 5, 20, 40, 0, RATES[i].penalty, 1000000, RATES[i].step, 0};
        about("rate %u, step %u, date %" PRIu64, (unsigned)RATES[i].penalty,
              (unsigned)RATES[i].step, RATES[i].date);
        booked(c, (struct booking){RATES[i].date, 15, 10, 15, 16},
               (struct figures){150000 - penalty, penalty, 0, 0, 0});
    }
}

/* ---- Refusals --------------------------------------------------------------------------------- */

/* A booking of nothing meets the checks of the record, and 12 where there is no decision date. */
static void record_case(const struct input *in, uint32_t number, uint64_t place)
{
    (void)place;
    struct figures f;
    struct booking nothing = {1, 0, 0, 0, 16};
    same("check", check_record(in), number);
    bool no_decision = number == 0 && in->terms.dates == 1;
    same("booking", book(in, nothing, &f), no_decision ? GMWB_REFUSED_STATE : number);
}

/* Here all else about the booking is wrong too. */
static void ordered_case(const struct input *in, uint32_t number, uint64_t place)
{
    (void)place;
    struct figures f;
    struct booking wrong = {0, 21, 11, 99, 15};
    same("check", check_record(in), number);
    same("booking", book(in, wrong, &f), number);
}

static void later_checks_in_order(void)
{
    struct booking b = {0, 21, 11, 99, 15};
    about("booking: all wrong");
    refused(P, b, GMWB_REFUSED_SLICE);
    about("booking: buffer mended");
    b.out_len = 16;
    refused(P, b, GMWB_REFUSED_STATE);
    about("booking: date mended");
    b.date = 1;
    refused(P, b, GMWB_REFUSED_STATE);
    about("booking: account mended");
    b.account = 20;
    refused(P, b, GMWB_REFUSED_STATE);
    about("booking: guarantee mended");
    b.guarantee = 10;
    refused(P, b, GMWB_REFUSED_AMOUNT);
    about("booking: amount mended");
    b.amount = 20;
    booked(P, b, (struct figures){185000, 15000, 0, 0, 0});
}

static void buffer_lengths(void)
{
    /* The last two would be 16 in 8 and in 16 bits. */
    static const size_t lengths[] = {0, 1, 15, 17, 32, 272, 65552};
    for (size_t i = 0; i < COUNT(lengths); i++) {
        about("buffer of %lu bytes", (unsigned long)lengths[i]);
        refused(P, (struct booking){1, 15, 10, 6, lengths[i]}, GMWB_REFUSED_SLICE);
    }
}

/* On P with 3 dates: decisions on 1 and 2, accounts to 20, guarantees to 10, level 5. */
static const struct {
    struct booking b;
    uint32_t number;
} BOOKINGS[] = {
    {{0, 0, 0, 0, 16}, 12},
    {{1, 0, 0, 0, 16}, 0},
    {{2, 0, 0, 0, 16}, 0},
    {{3, 0, 0, 0, 16}, 12},
    {{4, 0, 0, 0, 16}, 12},
    {{1, 20, 0, 0, 16}, 0},
    {{1, 21, 0, 0, 16}, 12},
    {{1, 0, 10, 0, 16}, 0},
    {{1, 0, 11, 0, 16}, 12},
    /* the larger of W and m: W, m as the level, m as the guarantee, both alike, none */
    {{1, 20, 10, 20, 16}, 0},
    {{1, 20, 10, 21, 16}, 14},
    {{1, 6, 10, 6, 16}, 0},
    {{1, 6, 10, 7, 16}, 14},
    {{1, 3, 10, 5, 16}, 0},
    {{1, 3, 10, 6, 16}, 14},
    {{1, 0, 2, 2, 16}, 0},
    {{1, 0, 2, 3, 16}, 14},
    {{1, 5, 5, 5, 16}, 0},
    {{1, 5, 5, 6, 16}, 14},
    {{1, 0, 0, 1, 16}, 14},
};

static void booking_boundaries(void)
{
    const struct terms three = {10, 5, 20, 3, 0, 1000, 1000000, 0, 0};
    struct input in = input_of(three, P_RETURNS, 2);
    for (size_t i = 0; i < COUNT(BOOKINGS); i++) {
        struct booking b = BOOKINGS[i].b;
        struct figures f;
        about("booking of %" PRIu64 " on date %" PRIu64 " at (%" PRIu64 ", %" PRIu64 ")", b.amount,
              b.date, b.account, b.guarantee);
        same("number", book(&in, b, &f), BOOKINGS[i].number);
    }
}

/* Case 8 is accepted; with one of its numbers made wider, in bits beyond 8, 16, 32 or 63, not. */
static void wide_numbers(void)
{
    static const uint64_t more[] = {UINT64_C(1) << 8, UINT64_C(1) << 16, UINT64_C(1) << 32,
                                    UINT64_C(1) << 63};
    for (size_t i = 0; i < COUNT(more); i++) {
        about("wide number: %" PRIu64 " more", more[i]);
        refused(P, (struct booking){1 + more[i], 15, 10, 6, 16}, GMWB_REFUSED_STATE);
        refused(P, (struct booking){1, 15 + more[i], 10, 6, 16}, GMWB_REFUSED_STATE);
        refused(P, (struct booking){1, 15, 10 + more[i], 6, 16}, GMWB_REFUSED_STATE);
        refused(P, (struct booking){1, 15, 10, 6 + more[i], 16}, GMWB_REFUSED_AMOUNT);
    }
    static const uint64_t whole[] = {UINT64_C(65537), UINT64_C(4294967297), UINT64_C(1) << 63,
                                     UINT64_MAX};
    for (size_t i = 0; i < COUNT(whole); i++) {
        about("wide number: %" PRIu64, whole[i]);
        refused(P, (struct booking){whole[i], 15, 10, 6, 16}, GMWB_REFUSED_STATE);
        refused(P, (struct booking){1, whole[i], 10, 6, 16}, GMWB_REFUSED_STATE);
        refused(P, (struct booking){1, whole[i], 10, whole[i], 16}, GMWB_REFUSED_STATE);
        refused(P, (struct booking){1, 15, whole[i], 6, 16}, GMWB_REFUSED_STATE);
        refused(P, (struct booking){1, 15, 10, whole[i], 16}, GMWB_REFUSED_AMOUNT);
    }
}

/* ---- Random rounds ---------------------------------------------------------------------------- */

/* An amount at or near an end of the dynamic set or of the free amount m; else any in the set. */
static uint64_t random_amount(uint64_t account, uint64_t m)
{
    switch (upto(7)) {
    case 0: return m;
    case 1: return m + 1;
    case 2: return account;
    case 3: return larger(account, m) + 1;
    default: return upto(larger(account, m));
    }
}

/* A number that fewer bits would take for another. */
static uint64_t wider(uint64_t number)
{
    static const unsigned bits[] = {8, 16, 32, 63};
    return one_in(4) ? random64() : number + (UINT64_C(1) << bits[upto(COUNT(bits) - 1)]);
}

static struct booking random_booking(struct terms c)
{
    static const size_t lengths[] = {0, 1, 15, 17, 32};
    struct booking b;
    b.date = one_in(8) ? upto(c.dates + UINT64_C(1)) : between(1, larger(c.dates, 2) - 1);
    b.account = one_in(8) ? upto(c.top + UINT64_C(1)) : upto(c.top);
    b.guarantee = one_in(8) ? upto(c.premium + UINT64_C(1)) : upto(c.premium);
    b.amount = random_amount(b.account, free_amount(c, b.guarantee));
    b.out_len = one_in(16) ? lengths[upto(COUNT(lengths) - 1)] : GMWB_BOOKING_BYTES;
    if (one_in(8)) {
        uint64_t *numbers[4] = {&b.date, &b.account, &b.guarantee, &b.amount};
        uint64_t *number = numbers[upto(3)];
        *number = wider(*number);
    }
    return b;
}

static void random_round(uint64_t round, uint64_t *came)
{
    uint64_t top = one_in(2) ? 30 : 4000;
    struct terms c = random_terms(top, top, 40);
    struct booking b = random_booking(c);
    struct input in = input_of(c, P_RETURNS, 2);
    for (uint64_t k = one_in(4) ? between(1, 2) : 0; k > 0; k--)
        damage_record(&in);
    char text[HEX_ROOM];
    about("round %" PRIu64 ": record %s of %lu bytes, date %" PRIu64 ", state (%" PRIu64 ", %" PRIu64
          "), amount %" PRIu64 ", buffer of %lu",
          round, hex(text, in.record, sizeof in.record), (unsigned long)in.record_len, b.date,
          b.account, b.guarantee, b.amount, (unsigned long)b.out_len);
    struct figures f;
    uint32_t checked = check_record(&in);
    uint32_t number = book(&in, b, &f);
    tally(came, number);
    if (checked != 0)
        same("booking on a refused record", number, checked);
}

int main(int argc, char **argv)
{
    struct rounds rounds = rounds_from(argc, argv, 100000);
    marked_cases();
    other_bookings();
    falling_rates();
    rates_at_zero();
    each_record(record_case);
    record_faults_in_order(ordered_case);
    later_checks_in_order();
    buffer_lengths();
    booking_boundaries();
    wide_numbers();
    uint64_t came[NUMBERS] = {0};
    static const uint32_t numbers[] = {0, 1, 2, 3, 4, 5, 6, 11, 12, 14, 15};
    for (uint64_t round = 0; round < one_in_rounds(rounds, 1, 1); round++)
        random_round(round, came);
    all_came(rounds, came, met, numbers, COUNT(numbers));
    return verdict("base");
}
