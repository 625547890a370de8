/*
 * Valuation of guaranteed minimum withdrawal benefits: the calls of libgmwb.a for C hosts.
 *
 * Answers. Each call but gmwb_version returns 0 on success, else the number of a refusal (enum
 * gmwb_refusal). Checks run in the order of the numbers, save that 15 comes right after 6, 17 and
 * 18 right after 9, and 16 right after 11; each call makes those for which it has the input, and
 * the first that fails is returned. A refusal changes no slice, save 19, which leaves gmwb_fee's
 * working slice as success does. What place, fee, value, margin and count point to, and the three
 * sizes of gmwb_sizes, are always written: place is 0 on success, the others are 0 on refusal.
 *
 * Units. Accounts, guarantees and withdrawals are whole money units; values, margins, cash and
 * penalties are ten-thousandths of a unit. What a money unit is, the host chooses: a coarse one
 * gives values that are too low. Fields of records and buffers are unsigned, low
 * byte first. Indexes and entries count from 0.
 *
 * Numbers. Date, account, guarantee, amount and behaviour are passed in 64 bits, more than any
 * accepted one needs, so that what the caller passes is what is refused: 65,537 is not taken for 1.
 * Values and cash are stored in 64 bits, in work, value and the cash of a walk; in a booking buffer
 * cash has 4 bytes. The amounts of a table and the return numbers of a path have 16 bits.
 *
 * Slices. A slice is a pointer, aligned for its type, and the number of entries behind it (bytes
 * for a record, a return list, death rates and a booking buffer). Nothing is read or written
 * through a pointer whose length is 0: it may be NULL. The pointers place, fee, value, margin and
 * count, and the three of gmwb_sizes, point to one object each and must not be NULL. Slices passed
 * as const are only read and may share memory with one another. Each slice that is not const, and
 * each such object, must be apart from all others of the call.
 *
 * Threads. A call allocates nothing and keeps no state. Calls may run at the same time where none
 * writes what another reads or writes.
 *
 * Time. A check, sizes and a booking take a few steps, a walk a few for each date and return.
 * Valuing a contract or a supplied table makes (N - 1) x (top + 1) x (U + 1) x returns products,
 * fewer where returns lead from a balance to one account, and looks at one amount of each state of
 * each decision date; mixed looks at two, dynamic, on each date, at about top x U x G amounts up to
 * m and at most U^3 / 6 above it. A death rate above 0 adds one pass over a layer on its date. A
 * map adds a look at each entry of the table. A search for a fee makes at most 14 valuations.
 *
 * In seconds, on one core of the machine of docs/BENCHMARK.md, which has more sizes:
 *
 *      top    U   G   N  returns  call
 *      100   50   5  10        8  dynamic 0.0003
 *      400  200  10  20       32  static 0.007, mixed 0.008, dynamic 0.018; a search for a fee,
 *                                 static and mixed 0.1, dynamic 0.3
 *      400  400  20  20       32  dynamic 0.053
 *     1000  500  25  20       32  dynamic 0.17
 *
 * At the second size a map adds 2 to 5 % and death rates 3 to 10 %; valuing without a table takes
 * as long or up to 6 % less.
 *
 * The archive is for x86-64: size_t has 64 bits.
 */
#ifndef GMWB_H
#define GMWB_H

#include <stddef.h>
#include <stdint.h>

#ifdef __cplusplus
extern "C" {
#endif

/* The place is 0 unless one is named. */
enum gmwb_refusal {
    GMWB_SUCCESS = 0,
    GMWB_REFUSED_RECORD_LENGTH = 1, /* record not 20 bytes */
    GMWB_REFUSED_PREMIUM = 2,       /* top above 4,000, or premium not 1 to top */
    GMWB_REFUSED_LEVEL = 3,         /* level not 1 to premium */
    GMWB_REFUSED_DATES = 4,         /* dates not 1 to 40 */
    GMWB_REFUSED_RATE = 5,          /* fee or penalty rate above 10,000 */
    GMWB_REFUSED_DISCOUNT = 6,      /* discount not 1 to 1,000,000 */
    GMWB_REFUSED_LIST_LENGTH = 7,   /* list empty, over 256 bytes, or not a multiple of 4 */
    GMWB_REFUSED_RETURN = 8,        /* factor above 30,000, or weight not 1 to 10,000;
                                       place: the first such record of the list */
    GMWB_REFUSED_WEIGHTS = 9,       /* weights do not add to 10,000 */
    GMWB_REFUSED_BEHAVIOUR = 10,    /* behaviour not 0 static, 1 mixed, 2 dynamic */
    GMWB_REFUSED_SLICE = 11,        /* work, table or cash shorter than needed; a booking buffer not
                                       16 bytes */
    GMWB_REFUSED_STATE = 12,        /* booking: date not 1 to N - 1, account above top, or guarantee
                                       above the premium */
    GMWB_REFUSED_PATH = 13,         /* walk: count of return numbers not N (looked at first), place
                                       N; or no such return, place: the first such index */
    GMWB_REFUSED_AMOUNT = 14,       /* amount outside the dynamic set; place: supplied table, the
                                       first such entry; walk, the date; booking, 0 */
    GMWB_REFUSED_STEP = 15,         /* step above 10,000 or a spare byte not zero; checked right
                                       after 6 */
    GMWB_REFUSED_MAP = 16,          /* map shorter than needed; checked right after 11 */
    GMWB_REFUSED_RATES_LENGTH = 17, /* list of death rates not of 2 x N bytes; checked
                                       right after 9 */
    GMWB_REFUSED_DEATH_RATE = 18,   /* death rate above 10,000; place: the index of the first such
                                       rate; checked right after 17 */
    GMWB_REFUSED_WANTED = 19        /* search for a fee: every fee from 0 to 10,000 gives more than
                                       wanted; found last */
};

/*
 * Six numbers have several conditions, of which more than one may hold. How a host tells which:
 *
 *      2  top above 4,000; else premium 0; else premium above top
 *      5  fee above 10,000, or penalty rate above 10,000
 *     11  work, table: shorter than gmwb_sizes says; cash: shorter than N; buffer: not 16 bytes
 *     12  date 0, or N or above; account above top; guarantee above the premium
 *     13  place N: the count of return numbers is not N; place below N: the number of that index
 *         is none of the list
 *     15  step above 10,000, or a spare byte not zero
 */

/* ---- Version ---------------------------------------------------------------------------------
 *
 * 100 x the number of the last request that this edition has, plus its revision. Where the header
 * is that of the archive, gmwb_version() is GMWB_VERSION; where it is not, records, numbers and
 * calls may differ.
 */
#define GMWB_VERSION 701

/* Returns the GMWB_VERSION that the archive was built with. */
uint32_t gmwb_version(void);

/* ---- Checking a record, booking a withdrawal -------------------------------------------------
 *
 * A contract record has 20 bytes:
 *
 *     offset  bytes  field                             range
 *          0      2  premium U                         1 to top
 *          2      2  level G, per date                 1 to U
 *          4      2  top, the largest account          up to 4,000
 *          6      2  dates N                           1 to 40
 *          8      2  fee per period, ten-thousandths   0 to 10,000
 *         10      2  penalty rate, ten-thousandths     0 to 10,000
 *         12      4  discount per period, millionths   1 to 1,000,000
 *         16      2  penalty step, ten-thousandths     0 to 10,000
 *         18      2  spare                             0
 *
 * A state is an account W, 0 to top, and a guarantee A, 0 to U; m is the smaller of G and A.
 * Decisions fall on dates 1 to N - 1, and date N is maturity. The dynamic set of a state holds the
 * amounts from 0 to the larger of W and m.
 *
 * The withdrawal of an amount t from a state on date i:
 *
 *     rate             the record's penalty rate less (i - 1) x step, never below zero
 *     cash             10,000 x t less penalty
 *     penalty          rate x (t - m) where t is above m, else 0
 *     guarantee after  A - t if t is at most m; else the smaller of A - t and A x (W - t) / W
 *                      rounded down, and never below 0
 *     balance after    W - t, never below 0
 *
 * A booking buffer has 16 bytes:
 *
 *     offset  bytes  field
 *          0      4  cash
 *          4      4  penalty
 *          8      2  balance after, before the return
 *         10      2  guarantee after
 *         12      4  zeros
 */
enum { GMWB_RECORD_BYTES = 20, GMWB_BOOKING_BYTES = 16 };

/*
 * Checks a contract record. Returns 0 where it is accepted, else a refusal (1 to 6, 15), whose
 * place is 0.
 */
uint32_t gmwb_check(const uint8_t *record, size_t record_len);

/*
 * Books the withdrawal of an amount on a decision date from a state of the contract. Returns 0 with
 * out filled as a booking buffer; else a refusal (1 to 6, 15, 11, 12, 14), whose place is 0, with
 * out untouched.
 */
uint32_t gmwb_book(const uint8_t *record, size_t record_len,
                   uint64_t date, uint64_t account, uint64_t guarantee, uint64_t amount,
                   uint8_t *out, size_t out_len);

/* ---- Sizes of the slices ---------------------------------------------------------------------
 *
 * Tells how long the slices of a contract have to be: work and table as "Valuing a contract" has
 * them, in entries, and the map of surrender, in words. Returns 0 with the three sizes; for N = 1
 * table and map are 0. Else a refusal (1 to 6, 15), whose place is 0, with the three 0. The sizes
 * are at most 32,016,002, 624,312,039 and 9,754,876.
 */
uint32_t gmwb_sizes(const uint8_t *record, size_t record_len,
                    uint64_t *work, uint64_t *table, uint64_t *map);

/* ---- Valuing a contract ----------------------------------------------------------------------
 *
 * A return list has 1 to 64 records of 4 bytes: factor (2 bytes, ten-thousandths, 0 to 30,000) and
 * weight (2 bytes, 1 to 10,000). The weights add to 10,000. The order of the records changes no
 * value and no amount; a walk names them by their number.
 *
 * A list of death rates, rates, has N rates of 2 bytes (ten-thousandths, 0 to 10,000): the rate of
 * index i is that of the period from date i to date i + 1. Zero rates give the values without
 * death.
 *
 * The value rests on these rules and on those of a withdrawal:
 *
 *     start      balance U and guarantee U, then the first return
 *     return     next account = balance x factor x (10,000 - fee) / 100,000,000, rounded down a
 *                single time; a result above top is held at top, and the excess is paid to the
 *                holder on arrival, without penalty
 *     death      death in a period pays 10,000 x the larger of W and A as reached on its closing
 *                date, before any decision, plus 10,000 x the excess
 *     reached    the value reached is that of the next account and the guarantee plus 10,000 x the
 *                excess; it becomes ((10,000 - rate) x value + rate x death payment) / 10,000,
 *                rounded down, before weights are applied; all this also on the first return and at
 *                maturity
 *     maturity   the value is 10,000 x the larger of W and A
 *     before it  an amount is worth its cash plus discount x (sum of weight x value reached) /
 *                10,000,000,000, rounded down once; a state's value is the largest worth among
 *                the amounts open to the holder
 *     contract   the same discounted and rounded sum over the first return, without cash
 *
 * A strategy chooses only while the holder lives.
 *
 * A layer has (top + 1) x (U + 1) entries; the entry of state (W, A) is W x (U + 1) + A.
 *
 * The working slice, work, needs two layers. After success the first holds the values of date 1
 * (for N = 1 those of maturity), the second zeros. They are values of a living holder: a state's
 * value counts each excess and each death payment that may be paid after its date, and not what was
 * paid on arrival in it or for death in the period before.
 *
 * The table holds withdrawal amounts and needs N - 1 layers: the layer of date i, from 1 to N - 1,
 * starts at entry (i - 1) x (top + 1) x (U + 1). For N = 1 its length may be 0.
 *
 * Either slice may be longer; entries beyond those needed play no part and are untouched.
 *
 * A contract in force, on date i from 1 to N with an account and a guarantee, is valued by a
 * shorter record: dates N - (i - 1), the penalty rate less (i - 1) x step, never below zero, all
 * else as it is (gmwb_terms_in_force), and the death rates from index i - 1 on. The first layer of
 * work then holds the values of date i: entry W x (U + 1) + A is what state (W, A) is worth before
 * its decision, for i = N at maturity. The table's layers are those of dates i, i + 1 and so on; a
 * supplied table is passed from its layer of date i on. The value of the call is that of a new
 * contract and tells nothing of the one in force.
 */
enum { GMWB_RETURN_BYTES = 4, GMWB_MOST_RETURNS = 64, GMWB_RATE_BYTES = 2 };

/* The amounts open to the holder. */
enum gmwb_behaviour {
    GMWB_STATIC = 0, /* m only */
    GMWB_MIXED = 1,  /* m and, where W is above m, also W (surrender) */
    GMWB_DYNAMIC = 2 /* the dynamic set */
};

/*
 * Values a contract under a behaviour. Returns 0 with the contract's value, the margin (value less
 * 10,000 x premium, negative where the contract is worth less than its premium), place 0, the
 * working slice as above, and in each entry of the table the recorded amount: the smallest among
 * the best. Else a refusal (1 to 6, 15, 7 to 9, 17, 18, 10, 11) and its place, with value 0, margin
 * 0, work and table untouched.
 */
uint32_t gmwb_value(const uint8_t *record, size_t record_len,
                    const uint8_t *list, size_t list_len,
                    const uint8_t *rates, size_t rates_len,
                    uint64_t behaviour,
                    uint64_t *work, size_t work_len,
                    uint16_t *table, size_t table_len,
                    uint64_t *place, uint64_t *value, int64_t *margin);

/* ---- Valuing a contract without a table ------------------------------------------------------
 *
 * Values a contract as gmwb_value does, with the same value, margin, place and working slice; no
 * table is lent. Returns 0 with these. Else a refusal (1 to 6, 15, 7 to 9, 17, 18, 10, 11, which
 * looks at work alone) and its place, with value 0, margin 0 and work untouched.
 */
uint32_t gmwb_value_no_table(const uint8_t *record, size_t record_len,
                             const uint8_t *list, size_t list_len,
                             const uint8_t *rates, size_t rates_len,
                             uint64_t behaviour,
                             uint64_t *work, size_t work_len,
                             uint64_t *place, uint64_t *value, int64_t *margin);

/* ---- Valuing a contract with a map of surrender ----------------------------------------------
 *
 * The map shows where surrender is the recorded amount. It holds 64-bit words, with a bit for each
 * entry of the table, the entries of all dates in their order, lowest bit first: the bit of entry e
 * is (map[e / 64] >> (e % 64)) & 1. It is 1 where the recorded amount equals W and W is above m,
 * else 0.
 *
 * The T entries that the table needs, (N - 1) x (top + 1) x (U + 1), take T / 64 words, rounded up.
 * For N = 1 that is none, and the map's length may be 0. Bits of the last word that belong to no
 * entry are 0. The map may be longer; words beyond those needed are untouched.
 *
 * Values a contract as gmwb_value does, each excess and each death payment counted, with the same
 * checks, place, value, margin, working slice and table. Returns 0 with these, the map as above,
 * and count, the number of bits set in the words needed. Else a refusal (1 to 6, 15, 7 to 9, 17,
 * 18, 10, 11, 16) and its place, with value 0, margin 0, count 0, work, table and map untouched.
 */
uint32_t gmwb_value_map(const uint8_t *record, size_t record_len,
                        const uint8_t *list, size_t list_len,
                        const uint8_t *rates, size_t rates_len,
                        uint64_t behaviour,
                        uint64_t *work, size_t work_len,
                        uint16_t *table, size_t table_len,
                        uint64_t *map, size_t map_len,
                        uint64_t *place, uint64_t *value, int64_t *margin, uint64_t *count);

/* ---- Searching for the fee that gives a price ------------------------------------------------
 *
 * Finds the smallest fee from 0 to 10,000 with which the contract's value does not exceed wanted,
 * any number of 64 bits; values are those of gmwb_value, each excess and each death payment
 * counted. The record's own fee is checked and otherwise unused. Record, list, rates and work as
 * above; no table is lent. Returns 0 with that fee, its value, the margin and place 0. Else a
 * refusal (1 to 6, 15, 7 to 9, 17, 18, 10, 11, 19) and its place, with fee 0, value 0 and margin 0.
 *
 * After the search, found (0) or not (19), the two layers of the working slice hold zeros; entries
 * beyond them are untouched. Any other refusal leaves work untouched.
 */
uint32_t gmwb_fee(const uint8_t *record, size_t record_len,
                  const uint8_t *list, size_t list_len,
                  const uint8_t *rates, size_t rates_len,
                  uint64_t behaviour, uint64_t wanted,
                  uint64_t *work, size_t work_len,
                  uint64_t *place, uint64_t *fee, uint64_t *value, int64_t *margin);

/* ---- Valuing a supplied table ----------------------------------------------------------------
 *
 * Values a contract whose holder withdraws, while alive, what the table says, each excess and each
 * death payment counted; record, list, rates, work and table as above. Every needed entry of the
 * table is checked against the dynamic set of its state, reachable or not. Returns 0 with value,
 * margin, place 0 and the working slice as gmwb_value does. Else a refusal (1 to 6, 15, 7 to 9, 17,
 * 18, 11, 14) and its place, with value 0, margin 0 and work untouched.
 */
uint32_t gmwb_value_table(const uint8_t *record, size_t record_len,
                          const uint8_t *list, size_t list_len,
                          const uint8_t *rates, size_t rates_len,
                          uint64_t *work, size_t work_len,
                          const uint16_t *table, size_t table_len,
                          uint64_t *place, uint64_t *value, int64_t *margin);

/* ---- Walking a contract along a path ---------------------------------------------------------
 *
 * Follows a table along a path of N return numbers (from 0, by place in the list), the first return
 * first; record, list and table as above. A walk is that of a holder who lives to maturity, and
 * takes no death rates. The table needs all N - 1 layers and cash N entries; only the table entries
 * met are checked. Returns 0 with place 0 and cash filled with N amounts in order of date, from
 * date 1 to maturity: the cash of the withdrawal, on the last the maturity payment, plus 10,000 x
 * the excess of the return that led there. Entries of cash beyond N are untouched. Else a refusal
 * (1 to 6, 15, 7 to 9, 11, 13, 14) and its place, with cash untouched.
 *
 * An excess is no withdrawal: it lowers no guarantee, and neither a table nor a booking holds it.
 */
uint32_t gmwb_walk(const uint8_t *record, size_t record_len,
                   const uint8_t *list, size_t list_len,
                   const uint16_t *table, size_t table_len,
                   const uint16_t *path, size_t path_len,
                   uint64_t *cash, size_t cash_len,
                   uint64_t *place);

/* ---- Packing and reading bytes, texts --------------------------------------------------------
 *
 * Functions of this header, for hosts that keep numbers. They check nothing: the calls do. A number
 * too large for its field is packed as the largest that the field holds, which the calls refuse as
 * they would refuse the number; none is taken for a smaller one.
 */

/* The fields of a record; its spare bytes are packed as 0. */
struct gmwb_terms {
    uint64_t premium, level, top, dates, fee, penalty, discount, step;
};

/* A record of a return list. */
struct gmwb_return {
    uint64_t factor, weight;
};

/* The fields of a booking buffer. */
struct gmwb_booking {
    uint32_t cash, penalty;
    uint16_t balance, guarantee;
};

/* Packs a number into a field of 1 to 7 bytes. */
static inline void gmwb_pack_field(uint64_t number, uint8_t *field, size_t bytes)
{
    const uint64_t largest = ((uint64_t)1 << (8 * bytes)) - 1;
    const uint64_t packed = number < largest ? number : largest;
    size_t i;
    for (i = 0; i < bytes; i++)
        field[i] = (uint8_t)(packed >> (8 * i) & 0xFF);
}

/* Fills the GMWB_RECORD_BYTES bytes of a record. */
static inline void gmwb_pack_record(const struct gmwb_terms *terms, uint8_t *record)
{
    gmwb_pack_field(terms->premium, record, 2);
    gmwb_pack_field(terms->level, record + 2, 2);
    gmwb_pack_field(terms->top, record + 4, 2);
    gmwb_pack_field(terms->dates, record + 6, 2);
    gmwb_pack_field(terms->fee, record + 8, 2);
    gmwb_pack_field(terms->penalty, record + 10, 2);
    gmwb_pack_field(terms->discount, record + 12, 4);
    gmwb_pack_field(terms->step, record + 16, 2);
    gmwb_pack_field(0, record + 18, 2);
}

/* Fills GMWB_RETURN_BYTES x count bytes of a return list. */
static inline void gmwb_pack_list(const struct gmwb_return *returns, size_t count, uint8_t *list)
{
    size_t i;
    for (i = 0; i < count; i++) {
        gmwb_pack_field(returns[i].factor, list + GMWB_RETURN_BYTES * i, 2);
        gmwb_pack_field(returns[i].weight, list + GMWB_RETURN_BYTES * i + 2, 2);
    }
}

/* Fills GMWB_RATE_BYTES x count bytes of a list of death rates. */
static inline void gmwb_pack_rates(const uint64_t *rates, size_t count, uint8_t *bytes)
{
    size_t i;
    for (i = 0; i < count; i++)
        gmwb_pack_field(rates[i], bytes + GMWB_RATE_BYTES * i, GMWB_RATE_BYTES);
}

/* Reads a field of 1 to 4 bytes. */
static inline uint32_t gmwb_read_field(const uint8_t *field, size_t bytes)
{
    uint32_t number = 0;
    while (bytes > 0)
        number = number << 8 | field[--bytes];
    return number;
}

/* Reads the GMWB_BOOKING_BYTES bytes that a booking has filled. */
static inline struct gmwb_booking gmwb_read_booking(const uint8_t *buffer)
{
    struct gmwb_booking read;
    read.cash = gmwb_read_field(buffer, 4);
    read.penalty = gmwb_read_field(buffer + 4, 4);
    read.balance = (uint16_t)gmwb_read_field(buffer + 8, 2);
    read.guarantee = (uint16_t)gmwb_read_field(buffer + 10, 2);
    return read;
}

/*
 * The terms of a contract in force, from a date of 1 to N on. For any other date they have 0 dates,
 * which every call refuses. The terms themselves are to be checked whole: what is refused in them,
 * too many dates or too high a penalty rate, may be gone from the shorter ones.
 */
static inline struct gmwb_terms gmwb_terms_in_force(struct gmwb_terms terms, uint64_t date)
{
    if (date == 0 || date > terms.dates) {
        terms.dates = 0;
        return terms;
    }
    terms.dates -= date - 1;
    /* the product is looked at as a quotient first: it may pass 64 bits */
    if (terms.step > 0 && date - 1 > terms.penalty / terms.step)
        terms.penalty = 0;
    else
        terms.penalty -= (date - 1) * terms.step;
    return terms;
}

/* A line of English for a number that a call returned, without a line's end; never NULL. */
static inline const char *gmwb_refusal_text(uint32_t number)
{
    static const char *const texts[] = {
        "accepted",
        "the record does not have 20 bytes",
        "top is above 4,000, or the premium is not 1 to top",
        "the level is not 1 to the premium",
        "the dates are not 1 to 40",
        "the fee or the penalty rate is above 10,000",
        "the discount is not 1 to 1,000,000",
        "the return list is empty, over 256 bytes, or not a multiple of 4 bytes",
        "a factor is above 30,000, or a weight is not 1 to 10,000",
        "the weights do not add to 10,000",
        "the behaviour is not 0 static, 1 mixed or 2 dynamic",
        "work, table or cash is shorter than needed, or a booking buffer does not have 16 bytes",
        "the date is not 1 to N - 1, the account is above top, or the guarantee above the premium",
        "the path does not have N return numbers, or one is not a return of the list",
        "an amount is outside the dynamic set",
        "the penalty step is above 10,000, or a spare byte is not zero",
        "the map is shorter than needed",
        "the death rates do not have 2 x N bytes",
        "a death rate is above 10,000",
        "every fee from 0 to 10,000 gives more than wanted",
    };
    return number < sizeof texts / sizeof texts[0] ? texts[number] : "no number of this edition";
}

#ifdef __cplusplus
}
#endif

#endif
