/*
 * All calls in several threads at once, on contracts that are accepted and on some that are refused:
 * each call tells and leaves what it tells and leaves when the calls are made one after the other.
 * Slices that are only read are shared by the threads, and death rates by the contracts too.
 */
#define _POSIX_C_SOURCE 200809L /* barriers */
#include <pthread.h>

#include "contracts.h"

/* Run and contracts have no common factor, so that in time a run begins at every contract. */
enum { THREADS = 4, CONTRACTS = 60, RUN = 7, USUAL_ROUNDS = 2000 };

/* No call writes more slices. */
enum { LEFT = 3 };

/* ---- The calls -------------------------------------------------------------------------------- */

/* What the calls on a contract are given. */
struct given {
    struct lent record, list, table, path;
    const uint8_t *rates;
    size_t rates_len;
    uint64_t behaviour, date, account, guarantee, amount;
    size_t out_len, work_len, cash_len, map_len;
    uint64_t wanted;
};

/* What a call tells and leaves; a slice that it does not take is empty. */
struct answer {
    uint32_t number;
    struct told told;
    struct lent left[LEFT];
};

static void check(const struct given *g, struct answer *a)
{
    a->number = gmwb_check(start(g->record), g->record.bytes);
}

/* The three sizes are told where other calls tell value, count and fee. */
static void sizes(const struct given *g, struct answer *a)
{
    a->number = gmwb_sizes(start(g->record), g->record.bytes,
                           &a->told.value, &a->told.count, &a->told.fee);
}

static void book(const struct given *g, struct answer *a)
{
    a->number = gmwb_book(start(g->record), g->record.bytes, g->date, g->account, g->guarantee,
                          g->amount, start(a->left[0]), g->out_len);
}

static void value(const struct given *g, struct answer *a)
{
    a->number = gmwb_value(start(g->record), g->record.bytes, start(g->list), g->list.bytes,
                           g->rates, g->rates_len, g->behaviour, start(a->left[0]), g->work_len,
                           start(a->left[1]), g->table.bytes / sizeof(uint16_t),
                           &a->told.place, &a->told.value, &a->told.margin);
}

static void value_no_table(const struct given *g, struct answer *a)
{
    a->number = gmwb_value_no_table(start(g->record), g->record.bytes, start(g->list),
                                    g->list.bytes, g->rates, g->rates_len, g->behaviour,
                                    start(a->left[0]), g->work_len,
                                    &a->told.place, &a->told.value, &a->told.margin);
}

static void value_map(const struct given *g, struct answer *a)
{
    a->number = gmwb_value_map(start(g->record), g->record.bytes, start(g->list), g->list.bytes,
                               g->rates, g->rates_len, g->behaviour, start(a->left[0]), g->work_len,
                               start(a->left[1]), g->table.bytes / sizeof(uint16_t),
                               start(a->left[2]), g->map_len,
                               &a->told.place, &a->told.value, &a->told.margin, &a->told.count);
}

static void fee(const struct given *g, struct answer *a)
{
    a->number = gmwb_fee(start(g->record), g->record.bytes, start(g->list), g->list.bytes,
                         g->rates, g->rates_len, g->behaviour, g->wanted,
                         start(a->left[0]), g->work_len,
                         &a->told.place, &a->told.fee, &a->told.value, &a->told.margin);
}

static void value_table(const struct given *g, struct answer *a)
{
    a->number = gmwb_value_table(start(g->record), g->record.bytes, start(g->list), g->list.bytes,
                                 g->rates, g->rates_len, start(a->left[0]), g->work_len,
                                 start(g->table), g->table.bytes / sizeof(uint16_t),
                                 &a->told.place, &a->told.value, &a->told.margin);
}

static void walk(const struct given *g, struct answer *a)
{
    a->number = gmwb_walk(start(g->record), g->record.bytes, start(g->list), g->list.bytes,
                          start(g->table), g->table.bytes / sizeof(uint16_t),
                          start(g->path), g->path.bytes / sizeof(uint16_t),
                          start(a->left[0]), g->cash_len, &a->told.place);
}

static const struct {
    const char *name;
    void (*make)(const struct given *g, struct answer *a);
} CALLS[] = {
    {"check", check},
    {"book", book},
    {"value", value},
    {"value_map", value_map},
    {"fee", fee},
    {"value_table", value_table},
    {"walk", walk},
    {"sizes", sizes},
    {"value_no_table", value_no_table},
};

enum { KINDS = COUNT(CALLS) };

/* Each kind of call in each of the four ways of a round. */
enum { LEAST_ROUNDS = 4 * KINDS };

/* The slices of a call, before it is made. */
static struct answer lent_to(size_t kind, const struct given *g)
{
    size_t work = g->work_len * sizeof(uint64_t), cash = g->cash_len * sizeof(uint64_t);
    size_t table = g->table.bytes, map = g->map_len * sizeof(uint64_t);
    const size_t bytes[KINDS][LEFT] = {
        {0},    {g->out_len}, {work, table}, {work, table, map}, {work},
        {work}, {cash},       {0},           {work},
    };
    struct answer a = {0, untold(), {{0}}};
    for (size_t i = 0; i < LEFT; i++)
        a.left[i] = lend(bytes[kind][i], 1);
    return a;
}

static void take_back_answer(struct answer a)
{
    for (size_t i = 0; i < LEFT; i++)
        take_back(a.left[i]);
}

static bool same_block(struct lent a, struct lent b)
{
    return memcmp(a.block, b.block, FENCE + a.bytes + a.after) == 0;
}

static bool same_answer(const struct answer *a, const struct answer *b)
{
    bool same = a->number == b->number && memcmp(&a->told, &b->told, sizeof a->told) == 0;
    for (size_t i = 0; i < LEFT; i++)
        same = same && same_block(a->left[i], b->left[i]);
    return same;
}

/* ---- Contracts -------------------------------------------------------------------------------- */

static struct given given[CONTRACTS];
static struct answer expected[CONTRACTS][KINDS];

/* Two lists of rates for all contracts, in the second of which one is refused. */
enum { RATES = 11 };
static struct lent rates[2];

static void lend_both_rates(void)
{
    uint16_t some[RATES];
    for (size_t i = 0; i < RATES; i++)
        some[i] = (uint16_t)between(1, 500);
    rates[0] = lend_copy(some, sizeof some, sizeof some);
    some[1] = 10001;
    rates[1] = lend_copy(some, sizeof some, sizeof some);
}

/* Admissible amounts; in one table of four some that are not. */
static struct lent random_table(struct terms c)
{
    size_t entries = table_of(c);
    uint16_t *table = allocate((entries + 1) * sizeof *table);
    bool bad = one_in(4);
    for (size_t i = 0; i < entries; i++)
        table[i] = (uint16_t)(bad && one_in(3) ? 65535 : upto(largest_at(c, i)));
    size_t bytes = entries * sizeof *table;
    struct lent lent = lend_copy(table, bytes, bytes);
    free(table);
    return lent;
}

static struct lent random_path(struct terms c, size_t count)
{
    uint16_t path[40];
    for (size_t i = 0; i < c.dates; i++)
        path[i] = (uint16_t)upto(one_in(64) ? count : count - 1);
    size_t bytes = c.dates * sizeof *path;
    return lend_copy(path, bytes, bytes);
}

/*
 * Half of the contracts are damaged here or there; some are so large that calls overlap long. All
 * have fewer dates than there are rates.
 */
static struct given random_given(void)
{
    bool damaged = one_in(2);
    struct terms c = one_in(4) ? random_terms(200, 100, 10) : random_terms(30, 30, 6);
    size_t count = (size_t)between(1, 8);
    struct input in = random_input(c, count);
    if (damaged && one_in(4))
        damage_record(&in);
    if (damaged && one_in(4))
        damage_list(&in);
    struct given g = {lend_record(&in), lend_list(&in), random_table(c), random_path(c, count),
                      start(rates[damaged && one_in(4)]), GMWB_RATE_BYTES * (size_t)c.dates,
                      upto(damaged ? 3 : 2), between(1, larger(c.dates, 2) - 1), upto(c.top),
                      upto(c.premium), 0, GMWB_BOOKING_BYTES, work_of(c), c.dates, map_of(c),
                      between(7000, 12000) * c.premium};
    g.amount = upto(larger(g.account, free_amount(c, g.guarantee)) + (damaged ? 1 : 0));
    if (damaged && one_in(4))
        g.rates_len += one_in(2) ? 1 : GMWB_RATE_BYTES;
    if (damaged && one_in(4))
        g.work_len--;
    if (damaged && one_in(4))
        g.cash_len--;
    if (damaged && one_in(4) && g.map_len > 0)
        g.map_len--;
    return g;
}

/* Every call, one after the other. Both acceptance and refusal must have come of each kind. */
static void prepare(void)
{
    uint64_t accepted[KINDS] = {0}, by_rates = 0, by_wanted = 0;
    lend_both_rates();
    for (size_t k = 0; k < CONTRACTS; k++) {
        given[k] = random_given();
        for (size_t kind = 0; kind < KINDS; kind++) {
            expected[k][kind] = lent_to(kind, &given[k]);
            CALLS[kind].make(&given[k], &expected[k][kind]);
            uint32_t number = expected[k][kind].number;
            accepted[kind] += number == 0;
            by_rates += number == GMWB_REFUSED_RATES_LENGTH || number == GMWB_REFUSED_DEATH_RATE;
            by_wanted += number == GMWB_REFUSED_WANTED;
        }
    }
    for (size_t kind = 0; kind < KINDS; kind++) {
        about("%s", CALLS[kind].name);
        holds("some are accepted and some refused",
              accepted[kind] > 0 && accepted[kind] < CONTRACTS);
    }
    about("death rates");
    holds("some are refused", by_rates > 0);
    about("wanted values");
    holds("some have no fee", by_wanted > 0);
}

/* ---- Threads ---------------------------------------------------------------------------------- */

struct worker {
    pthread_t thread;
    size_t number;
    uint64_t rounds;
    uint64_t differing[KINDS];
    uint64_t beside; /* calls begun while another was under way */
};

static pthread_barrier_t together;
static unsigned under_way;

static void make_call(struct worker *w, size_t k, size_t kind)
{
    struct answer a = lent_to(kind, &given[k]);
    unsigned others = __atomic_fetch_add(&under_way, 1, __ATOMIC_RELAXED);
    CALLS[kind].make(&given[k], &a);
    __atomic_fetch_sub(&under_way, 1, __ATOMIC_RELAXED);
    w->beside += others > 0;
    w->differing[kind] += !same_answer(&a, &expected[k][kind]);
    take_back_answer(a);
}

/*
 * The threads start each round together and make a run of calls of one kind, on one contract after
 * the other: in turn all of the same kind and on the same contracts, or of different ones.
 */
static void *work(void *argument)
{
    struct worker *w = argument;
    for (uint64_t round = 0; round < w->rounds; round++) {
        size_t turn = (size_t)(round / 4);
        size_t kind = turn + (round % 2 == 0 ? 0 : w->number);
        size_t first = RUN * (turn + (round % 4 < 2 ? 0 : w->number));
        pthread_barrier_wait(&together);
        for (size_t i = 0; i < RUN; i++)
            make_call(w, (first + i) % CONTRACTS, kind % KINDS);
    }
    return NULL;
}

static void run(struct worker *workers, uint64_t rounds)
{
    bool fine = pthread_barrier_init(&together, NULL, THREADS) == 0;
    for (size_t i = 0; fine && i < THREADS; i++) {
        workers[i].number = i;
        workers[i].rounds = rounds;
        fine = pthread_create(&workers[i].thread, NULL, work, &workers[i]) == 0;
    }
    if (!fine) {
        fprintf(stderr, "no threads\n");
        exit(2);
    }
    for (size_t i = 0; i < THREADS; i++)
        pthread_join(workers[i].thread, NULL);
    pthread_barrier_destroy(&together);
}

static void compare(const struct worker *workers, bool often)
{
    uint64_t beside = 0;
    for (size_t i = 0; i < THREADS; i++) {
        for (size_t kind = 0; kind < KINDS; kind++) {
            about("%s in thread %lu", CALLS[kind].name, (unsigned long)i);
            same("answers that differ", workers[i].differing[kind], 0);
        }
        beside += workers[i].beside;
    }
    about("all threads");
    if (often)
        holds("calls overlapped", beside > 0);
}

int main(int argc, char **argv)
{
    struct rounds rounds = rounds_from(argc, argv, USUAL_ROUNDS);
    struct worker workers[THREADS] = {0};
    prepare();
    run(workers, rounds.least ? LEAST_ROUNDS : rounds.most);
    compare(workers, rounds.usual);
    for (size_t k = 0; k < CONTRACTS; k++) {
        for (size_t kind = 0; kind < KINDS; kind++)
            take_back_answer(expected[k][kind]);
        take_back(given[k].record);
        take_back(given[k].list);
        take_back(given[k].table);
        take_back(given[k].path);
    }
    take_back(rates[0]);
    take_back(rates[1]);
    return verdict("threads");
}
