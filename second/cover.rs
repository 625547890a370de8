//! `second cover`: whether a script, read from standard input, has every case that the
//! test program is to go through.
//!
//! Each check is looked at here apart from the others, on input that earlier checks may
//! refuse: bytes that are not there count as 0, a list is read as far as it has whole
//! records, a walk is followed as far as it leads. So it can be told which checks an
//! operation fails beside the one that refuses it. The first of them has to be the
//! number that is answered.

use crate::cases::ORDERS;
use crate::script::{digest, Operation, Session, Valuing};
use std::collections::BTreeMap;

const LEAST_OPERATIONS: u64 = 2_000;
const LEAST_REFUSALS: u64 = 10;
const LEAST_ACCEPTED: u64 = 100;
const LEAST_FALLEN: u64 = 20;
const LEAST_MARKED: u64 = 10;
const LEAST_WIDE: u64 = 20;
const LEAST_LIFTED: u64 = 50;
const LEAST_DEATHS: u64 = 10;
const LEAST_SEARCHED: u64 = 10;
const LEAST_GROUPED: u64 = 2;
const LEAST_AGAIN: u64 = 5;
const LEAST_BY_HOSTS: u64 = 5;

/// Tables up to here are also made by other versions of the rules.
const MOST_COMPARED: u64 = 400;

/// Contracts of up to so many states, of all dates, are valued for check 19.
const MOST_SEARCHED: u64 = 100_000;

/// The fields of a record.
#[derive(Clone, Copy)]
struct Fields {
    premium: u64,
    level: u64,
    top: u64,
    dates: u64,
    fee: u64,
    penalty: u64,
    discount: u64,
    step: u64,
    spare: u64,
}

fn number_at(bytes: &[u8], offset: usize, width: usize) -> u64 {
    let byte = |i: usize| u64::from(*bytes.get(offset + i).unwrap_or(&0));
    (0..width).rev().fold(0, |n, i| n * 256 + byte(i))
}

impl Fields {
    fn of(record: &[u8]) -> Fields {
        Fields {
            premium: number_at(record, 0, 2),
            level: number_at(record, 2, 2),
            top: number_at(record, 4, 2),
            dates: number_at(record, 6, 2),
            fee: number_at(record, 8, 2),
            penalty: number_at(record, 10, 2),
            discount: number_at(record, 12, 4),
            step: number_at(record, 16, 2),
            spare: number_at(record, 18, 2),
        }
    }

    fn layer(&self) -> u64 {
        (self.top + 1) * (self.premium + 1)
    }

    fn table(&self) -> u64 {
        self.dates.saturating_sub(1) * self.layer()
    }

    /// The words of the map.
    fn map(&self) -> u64 {
        self.table().div_ceil(64)
    }

    fn m(&self, guarantee: u64) -> u64 {
        self.level.min(guarantee)
    }

    fn rate(&self, date: u64) -> u64 {
        self.penalty.saturating_sub((date - 1) * self.step)
    }

    /// Date, account and guarantee of an entry of the table.
    fn state(&self, entry: u64) -> (u64, u64, u64) {
        let (row, state) = (self.premium + 1, entry % self.layer());
        (entry / self.layer() + 1, state / row, state % row)
    }

    /// Where a return lifts a balance to, above top or not.
    fn lifted(&self, balance: u64, factor: u64) -> u64 {
        let kept = 10_000_u64.saturating_sub(self.fee);
        balance * factor * kept / 100_000_000
    }

    fn account_after(&self, balance: u64, factor: u64) -> u64 {
        self.lifted(balance, factor).min(self.top)
    }
}

/// Factor and weight of each whole record of a list.
fn returns(list: &[u8]) -> Vec<(u64, u64)> {
    let records = list.chunks_exact(4);
    records
        .map(|r| (number_at(r, 0, 2), number_at(r, 2, 2)))
        .collect()
}

/// Each whole rate of a list of death rates.
fn death_rates(rates: &[u8]) -> Vec<u64> {
    rates.chunks_exact(2).map(|r| number_at(r, 0, 2)).collect()
}

fn record_fails(number: u64, record: &[u8]) -> bool {
    let c = Fields::of(record);
    match number {
        1 => record.len() != 20,
        2 => c.top > 4_000 || c.premium == 0 || c.premium > c.top,
        3 => c.level == 0 || c.level > c.premium,
        4 => c.dates == 0 || c.dates > 40,
        5 => c.fee > 10_000 || c.penalty > 10_000,
        6 => c.discount == 0 || c.discount > 1_000_000,
        _ => c.step > 10_000 || c.spare != 0,
    }
}

fn list_fails(number: u64, list: &[u8]) -> bool {
    let returns = returns(list);
    match number {
        7 => list.is_empty() || list.len() > 256 || list.len() % 4 != 0,
        8 => returns
            .iter()
            .any(|(f, w)| *f > 30_000 || *w == 0 || *w > 10_000),
        _ => returns.iter().map(|r| r.1).sum::<u64>() != 10_000,
    }
}

/// An amount drawn in a state on a date.
#[derive(Clone, Copy)]
struct Drawn {
    date: u64,
    account: u64,
    guarantee: u64,
    amount: u64,
}

impl Drawn {
    fn fails(&self, c: &Fields) -> bool {
        self.amount > self.account.max(c.m(self.guarantee))
    }

    fn above_m(&self, c: &Fields) -> bool {
        self.amount > c.m(self.guarantee)
    }

    fn surrenders(&self, c: &Fields) -> bool {
        self.amount == self.account && self.above_m(c)
    }

    fn cash(&self, c: &Fields) -> u64 {
        let penalised = self.amount.saturating_sub(c.m(self.guarantee));
        10_000 * self.amount - c.rate(self.date) * penalised
    }

    fn balance_after(&self) -> u64 {
        self.account.saturating_sub(self.amount)
    }

    fn guarantee_after(&self, c: &Fields) -> u64 {
        let (account, guarantee, amount) = (self.account, self.guarantee, self.amount);
        let after = guarantee.saturating_sub(amount);
        match self.above_m(c) {
            true => after.min(guarantee * (account - amount) / account),
            false => after,
        }
    }
}

/// Every entry of a table, of those the contract needs.
fn drawn_in_table(c: &Fields, table: &[u16]) -> Vec<Drawn> {
    let entries = (0..c.table()).zip(table).map(|(entry, amount)| {
        let (date, account, guarantee) = c.state(entry);
        Drawn {
            date,
            account,
            guarantee,
            amount: u64::from(*amount),
        }
    });
    entries.collect()
}

/// Where each return of an accepted walk lifts the account to, the last return at maturity.
fn lifted_on_walk(c: &Fields, list: &[u8], met: &[Drawn], numbers: &[u16]) -> Vec<u64> {
    let returns = returns(list);
    let after = met.iter().map(Drawn::balance_after);
    let balances = std::iter::once(c.premium).chain(after);
    balances
        .zip(numbers)
        .map(|(balance, number)| c.lifted(balance, returns[usize::from(*number)].0))
        .collect()
}

/// What a walk meets, as far as it leads; an amount that is not admissible ends it.
fn drawn_on_walk(c: &Fields, list: &[u8], table: &[u16], numbers: &[u16]) -> Vec<Drawn> {
    let returns = returns(list);
    let mut met = Vec::new();
    let (mut balance, mut guarantee) = (c.premium, c.premium);
    for (date, number) in (1..c.dates).zip(numbers) {
        let Some((factor, _)) = returns.get(usize::from(*number)) else {
            break;
        };
        let account = c.account_after(balance, *factor);
        let entry = (date - 1) * c.layer() + account * (c.premium + 1) + guarantee;
        let Some(amount) = table.get(entry as usize).map(|t| u64::from(*t)) else {
            break;
        };
        let drawn = Drawn {
            date,
            account,
            guarantee,
            amount,
        };
        met.push(drawn);
        if drawn.fails(c) {
            break;
        }
        balance = drawn.balance_after();
        guarantee = drawn.guarantee_after(c);
    }
    met
}

fn name_of(operation: &Operation) -> &'static str {
    match operation {
        Operation::Check { .. } => "check",
        Operation::Sizes { .. } => "sizes",
        Operation::ValueNoTable { .. } => "value_no_table",
        Operation::Value(_) => "value",
        Operation::ValueMap(..) => "value_map",
        Operation::Fee { .. } => "fee",
        Operation::ValueTable { .. } => "value_table",
        Operation::Book { .. } => "book",
        Operation::Walk { .. } => "walk",
    }
}

fn record_of(operation: &Operation) -> &[u8] {
    match operation {
        Operation::Value(v) | Operation::ValueMap(v, _) => &v.record,
        Operation::Check { record }
        | Operation::Sizes { record }
        | Operation::ValueNoTable { record, .. }
        | Operation::Fee { record, .. }
        | Operation::ValueTable { record, .. }
        | Operation::Book { record, .. }
        | Operation::Walk { record, .. } => record,
    }
}

fn list_of(operation: &Operation) -> &[u8] {
    match operation {
        Operation::Check { .. } | Operation::Sizes { .. } | Operation::Book { .. } => &[],
        Operation::Value(v) | Operation::ValueMap(v, _) => &v.list,
        Operation::ValueNoTable { list, .. }
        | Operation::Fee { list, .. }
        | Operation::ValueTable { list, .. }
        | Operation::Walk { list, .. } => list,
    }
}

/// The death rates of an operation that takes some.
fn rates_of(operation: &Operation) -> Option<&[u8]> {
    match operation {
        Operation::Value(v) | Operation::ValueMap(v, _) => Some(&v.rates),
        Operation::ValueNoTable { rates, .. }
        | Operation::Fee { rates, .. }
        | Operation::ValueTable { rates, .. } => Some(rates),
        _ => None,
    }
}

/// Checks 17 and 18.
fn rates_fail(number: u64, operation: &Operation) -> bool {
    let c = Fields::of(record_of(operation));
    rates_of(operation).is_some_and(|rates| match number {
        17 => rates.len() as u64 != 2 * c.dates,
        _ => death_rates(rates).iter().any(|rate| *rate > 10_000),
    })
}

/// Check 11: lent slices, a map left out, shorter than needed, or a booking buffer not of 16
/// bytes.
fn lent_fails(operation: &Operation) -> bool {
    let c = Fields::of(record_of(operation));
    let short = |length: usize, needed: u64| (length as u64) < needed;
    let valuing_fails = |work: &[u64], table: &[u16]| {
        short(work.len(), 2 * c.layer()) || short(table.len(), c.table())
    };
    match operation {
        Operation::Check { .. } | Operation::Sizes { .. } => false,
        Operation::Value(v) | Operation::ValueMap(v, _) => valuing_fails(&v.work, &v.table),
        Operation::ValueNoTable { work, .. } | Operation::Fee { work, .. } => {
            short(work.len(), 2 * c.layer())
        }
        Operation::ValueTable { work, table, .. } => valuing_fails(work, table),
        Operation::Book { buffer, .. } => buffer.len() != 16,
        Operation::Walk { table, cash, .. } => {
            short(table.len(), c.table()) || short(cash.len(), c.dates)
        }
    }
}

/// Checks 10, 12 to 14, 16 and 19.
fn other_fails(number: u64, operation: &Operation) -> bool {
    let c = Fields::of(record_of(operation));
    match operation {
        Operation::Check { .. } | Operation::Sizes { .. } => false,
        Operation::ValueNoTable { behaviour, .. } => number == 10 && *behaviour > 2,
        Operation::ValueMap(_, map) if number == 16 => (map.len() as u64) < c.map(),
        Operation::Value(v) | Operation::ValueMap(v, _) => number == 10 && v.behaviour > 2,
        Operation::Fee { behaviour, .. } if number == 10 => *behaviour > 2,
        Operation::Fee { wanted, .. } => number == 19 && wanted_fails(&c, operation, *wanted),
        Operation::ValueTable { table, .. } => {
            number == 14 && drawn_in_table(&c, table).iter().any(|d| d.fails(&c))
        }
        Operation::Book {
            date,
            account,
            guarantee,
            amount,
            ..
        } => match number {
            12 => *date == 0 || *date >= c.dates || *account > c.top || *guarantee > c.premium,
            _ => number == 14 && *amount > (*account).max(c.m(*guarantee)),
        },
        Operation::Walk {
            list,
            table,
            numbers,
            ..
        } => {
            let count = list.len() / 4;
            match number {
                13 if numbers.len() as u64 != c.dates => true,
                13 => numbers.iter().any(|n| usize::from(*n) >= count),
                _ => {
                    let met = drawn_on_walk(&c, list, table, numbers);
                    number == 14 && met.iter().any(|d| d.fails(&c))
                }
            }
        }
    }
}

/// Check 19. It has a meaning only for a contract that can be valued. The largest fee gives the
/// least; a contract too large to be valued here is taken to have a fee.
fn wanted_fails(c: &Fields, operation: &Operation, wanted: u64) -> bool {
    let mut before = order_of("fee").iter().filter(|n| ![11, 19].contains(*n));
    let valid = before.all(|n| !fails(*n, operation));
    valid && c.layer() * c.dates <= MOST_SEARCHED && at_fee(c, operation, 10_000).0 > wanted
}

fn fails(number: u64, operation: &Operation) -> bool {
    match number {
        1..=6 | 15 => record_fails(number, record_of(operation)),
        7..=9 => list_fails(number, list_of(operation)),
        11 => lent_fails(operation),
        17 | 18 => rates_fail(number, operation),
        _ => other_fails(number, operation),
    }
}

fn order_of(name: &str) -> &'static [u64] {
    let known = ORDERS.iter().find(|(operation, _)| *operation == name);
    known.map_or(&[], |(_, order)| order)
}

/// The number that an answer starts with.
fn number_of(answer: &str) -> u64 {
    let word = answer.split(' ').next();
    word.and_then(|w| w.parse().ok()).unwrap_or(u64::MAX)
}

/// How often each case was met.
type Tally = BTreeMap<String, u64>;

fn count(tally: &mut Tally, case: String) {
    *tally.entry(case).or_default() += 1;
}

/// Counts those of some cases that hold, each as `said`.
fn count_held(tally: &mut Tally, cases: &[&str], holds: &[bool], said: impl Fn(&str) -> String) {
    for (case, _) in cases.iter().zip(holds).filter(|(_, holds)| **holds) {
        count(tally, said(case));
    }
}

fn refusal(name: &str, number: u64) -> String {
    format!("{name} refused with {number}")
}

fn beside(name: &str, number: u64, next: u64) -> String {
    format!("{name} refused with {number} where {next} fails too")
}

fn dates_case(what: &str, dates: u64, behaviour: u64) -> String {
    format!("N {dates} {what} under behaviour {behaviour}")
}

/// What an accepted valuation has that the script is to have somewhere.
fn count_valued(tally: &mut Tally, c: &Fields, v: &Valuing) {
    let returns = returns(&v.list);
    let mut factors: Vec<u64> = returns.iter().map(|r| r.0).collect();
    factors.sort_unstable();
    let exact = [
        v.work.len() as u64 - 2 * c.layer(),
        v.table.len() as u64 - c.table(),
    ];
    for (case, holds) in [
        ("top 1", c.top == 1),
        ("fee 10,000", c.fee == 10_000),
        ("penalty rate 10,000", c.penalty == 10_000),
        ("discount 1", c.discount == 1),
        ("step 10,000", c.step == 10_000),
        ("equal factors", factors.windows(2).any(|w| w[0] == w[1])),
        ("factor 0", factors.contains(&0)),
        ("factor 30,000", factors.contains(&30_000)),
        ("weight 1", returns.iter().any(|r| r.1 == 1)),
        ("weight 10,000", returns.iter().any(|r| r.1 == 10_000)),
        ("64 returns", returns.len() == 64),
        ("slices just long enough", exact == [0, 0]),
        ("a longer working slice", exact[0] > 0),
        ("a longer table", exact[1] > 0),
    ] {
        if holds {
            count(tally, format!("{case} valued"));
        }
    }
    count(tally, dates_case("valued", c.dates, v.behaviour));
    if c.step > 0 && c.dates > 2 {
        count(tally, rate_case(c, v.behaviour));
    }
}

const ENDS: [&str; 3] = [
    "above zero on the last decision date",
    "at zero on the last decision date",
    "at zero before the last decision date",
];

fn rate_at_end(behaviour: u64, end: &str) -> String {
    format!("a penalty rate that falls, {end}, valued under behaviour {behaviour}")
}

/// Where the penalty rate of a valuation with a step gets to; it has two decision dates or more.
fn rate_case(c: &Fields, behaviour: u64) -> String {
    let last = c.dates - 1;
    match (c.rate(last - 1), c.rate(last)) {
        _ if c.penalty == 0 => "penalty rate 0 and a step valued".to_string(),
        (0, _) => rate_at_end(behaviour, ENDS[2]),
        (_, 0) => rate_at_end(behaviour, ENDS[1]),
        _ => rate_at_end(behaviour, ENDS[0]),
    }
}

fn fallen(name: &str, to: &str) -> String {
    format!("{name} above m at a penalty rate that has fallen {to}")
}

/// Whether an accepted booking, supplied table or walk draws above m on a date whose rate
/// has fallen, and to what.
fn count_fallen(tally: &mut Tally, c: &Fields, operation: &Operation) {
    let drawn = match operation {
        Operation::Check { .. }
        | Operation::Sizes { .. }
        | Operation::Value(_)
        | Operation::ValueNoTable { .. }
        | Operation::ValueMap(..)
        | Operation::Fee { .. } => Vec::new(),
        Operation::ValueTable { table, .. } => drawn_in_table(c, table),
        Operation::Book {
            date,
            account,
            guarantee,
            amount,
            ..
        } => vec![Drawn {
            date: *date,
            account: *account,
            guarantee: *guarantee,
            amount: *amount,
        }],
        Operation::Walk {
            list,
            table,
            numbers,
            ..
        } => drawn_on_walk(c, list, table, numbers),
    };
    let name = name_of(operation);
    let falls = |d: &&Drawn| d.above_m(c) && c.rate(d.date) < c.penalty;
    let rates: Vec<u64> = drawn.iter().filter(falls).map(|d| c.rate(d.date)).collect();
    if rates.contains(&0) {
        count(tally, fallen(name, "to zero"));
    }
    if rates.iter().any(|rate| *rate > 0) {
        count(tally, fallen(name, "not to zero"));
    }
}

/// What an accepted valuation with a map has that the script is to have somewhere: its
/// lengths, and what the words needed held before.
fn count_mapped(tally: &mut Tally, c: &Fields, v: &Valuing, map: &[u64]) {
    let (entries, row, lent) = (c.table(), c.premium + 1, map.len() as u64);
    let held = &map[..c.map() as usize];
    let unused = held.last().map_or(0, |word| word >> (entries % 64));
    for (case, holds) in [
        ("a map just long enough", lent == c.map() && lent > 0),
        ("a longer map", lent > c.map()),
        ("N 1 without a word", c.dates == 1 && lent == 0),
        ("N 1 with words", c.dates == 1 && lent > 0),
        ("a table that ends inside a word", entries % 64 > 1),
        (
            "a table that ends with a word",
            entries > 0 && entries % 64 == 0,
        ),
        ("a table that ends one entry into a word", entries % 64 == 1),
        ("rows shorter than a word", row < 64),
        ("rows as long as a word", row == 64),
        ("rows longer than a word", row > 64),
        ("rows longer than two words", row > 128),
        ("unused bits that were set", entries % 64 > 0 && unused > 0),
        (
            "several words of 40 ones or more",
            held.len() > 1 && held.iter().all(|word| word.count_ones() >= 40),
        ),
    ] {
        if holds {
            count(tally, format!("{case} mapped"));
        }
    }
    count(tally, dates_case("mapped", c.dates, v.behaviour));
}

const SURRENDERED: [&str; 7] = [
    "on date 1 of several",
    "on a later date",
    "at penalty rate 0",
    "at a penalty rate that has fallen",
    "in the lowest bit of a word",
    "in the highest bit of a word",
    "in the table's last entry",
];

fn surrendered(how: &str, behaviour: u64) -> String {
    format!("surrender {how} under behaviour {behaviour}")
}

/// Where the table that is left has surrender; and whether it draws a W equal to m, which
/// is none.
fn count_surrendered(tally: &mut Tally, c: &Fields, behaviour: u64, left: &[u16]) {
    let drawn = drawn_in_table(c, left);
    let marked: Vec<usize> = (0..drawn.len())
        .filter(|entry| drawn[*entry].surrenders(c))
        .collect();
    let dates: Vec<u64> = marked.iter().map(|entry| drawn[*entry].date).collect();
    let holds = [
        c.dates > 2 && dates.contains(&1),
        dates.iter().any(|date| *date > 1),
        c.penalty == 0 && !marked.is_empty(),
        dates.iter().any(|date| c.rate(*date) < c.penalty),
        marked.iter().any(|entry| entry % 64 == 0),
        marked.iter().any(|entry| entry % 64 == 63),
        marked.last().is_some_and(|entry| entry + 1 == drawn.len()),
    ];
    count_held(tally, &SURRENDERED, &holds, |how| {
        surrendered(how, behaviour)
    });
    if marked.is_empty() {
        count(tally, surrendered("nowhere", behaviour));
    }
    let equal = |d: &Drawn| d.amount == d.account && d.amount > 0 && d.amount == c.m(d.guarantee);
    if drawn.iter().any(equal) {
        count(tally, "W equal to m drawn mapped".to_string());
    }
}

/// How a valuation's returns lie about top. The first return leads from the premium; a balance
/// at top is the one that the others lift most.
const LIFTED: [&str; 12] = [
    "a first return above top, N 1",
    "a first return above top and decision dates",
    "a first return to top",
    "a first return to one above top",
    "a return above top to a decision date",
    "a return above top to maturity",
    "a return above top that the first is not",
    "several returns above top",
    "a return above top beside one below",
    "a return above top after a fee",
    "a fee that brings a return down to top",
    "no return above top",
];

fn with(name: &str, how: &str) -> String {
    format!("{name} with {how}")
}

fn lifted_holds(c: &Fields, list: &[u8]) -> [bool; 12] {
    let factors: Vec<u64> = returns(list).iter().map(|r| r.0).collect();
    let from = |balance: u64| factors.iter().map(move |f| c.lifted(balance, *f));
    let passes = |lifted: u64| lifted > c.top;
    let (first, above) = (
        from(c.premium).any(passes),
        from(c.top).filter(|l| passes(*l)).count(),
    );
    let downward = |f: &u64| c.top * f / 10_000 > c.top && c.lifted(c.top, *f) == c.top;
    [
        first && c.dates == 1,
        first && c.dates > 1,
        from(c.premium).any(|l| l == c.top),
        from(c.premium).any(|l| l == c.top + 1),
        above > 0 && c.dates > 2,
        above > 0 && c.dates > 1,
        above > 0 && c.dates > 1 && !first,
        above > 1,
        above > 0 && above < factors.len(),
        above > 0 && c.fee > 0,
        c.fee > 0 && factors.iter().any(downward),
        above == 0,
    ]
}

/// Where a walk passes top, what is drawn there, and how far it passes it.
const PASSED: [&str; 15] = [
    "at maturity, N 1",
    "on date 1",
    "on a date between",
    "at maturity",
    "on date 1 alone",
    "on a date between alone",
    "at maturity alone",
    "on every date",
    "by 1",
    "after a fee",
    "with nothing drawn",
    "with m drawn",
    "with a penalty",
    "nowhere, where it comes to top",
    "nowhere, where a return of the list would",
];

fn passed(how: &str) -> String {
    format!("walk that passes top {how}")
}

fn passed_holds(c: &Fields, list: &[u8], met: &[Drawn], numbers: &[u16]) -> [bool; 15] {
    let lifted = lifted_on_walk(c, list, met, numbers);
    let passes: Vec<bool> = lifted.iter().map(|l| *l > c.top).collect();
    let last = passes.len() - 1;
    let alone = passes.iter().filter(|p| **p).count() == 1;
    let (first, between, maturity) = match last {
        0 => (false, false, false),
        _ => (passes[0], passes[1..last].contains(&true), passes[last]),
    };
    let drawn = |how: &dyn Fn(&Drawn) -> bool| met.iter().zip(&passes).any(|(d, p)| *p && how(d));
    let nowhere = !passes.contains(&true);
    let others = returns(list).iter().any(|r| c.lifted(c.top, r.0) > c.top);
    [
        last == 0 && passes[0],
        first,
        between,
        maturity,
        first && alone,
        between && alone,
        maturity && alone,
        last > 1 && !passes.contains(&false),
        lifted.contains(&(c.top + 1)),
        c.fee > 0 && !nowhere,
        drawn(&|d| d.amount == 0),
        drawn(&|d| d.amount > 0 && d.amount == c.m(d.guarantee)),
        drawn(&|d| d.above_m(c) && c.rate(d.date) > 0),
        nowhere && lifted.contains(&c.top),
        nowhere && others,
    ]
}

/// The amounts open in a state, smallest first.
fn open(c: &Fields, behaviour: u64, state: &Drawn) -> Vec<u64> {
    let (w, m) = (state.account, c.m(state.guarantee));
    match behaviour {
        0 => vec![m],
        1 if w > m => vec![m, w],
        1 => vec![m],
        _ => (0..=w.max(m)).collect(),
    }
}

/// The rules, and what they are not to be mistaken for.
#[derive(Clone, Copy, PartialEq)]
enum Version {
    Rules,
    ExcessDropped,
    PeriodLate,
    PeriodEarly,
    FirstReturnWithout,
    GuaranteeAlone,
    AccountAlone,
    RoundedLater,
    ExcessNotAtDeath,
    Exchanged,
    WithoutExcess,
    LastGroupLost,
    WeightOnce,
    FactorOnce,
    FirstPlaceLost,
    PlaceLost,
    LastPlaceLost,
    Room63,
    BalanceZero,
    BalanceBefore,
}

/// Sums by account reached otherwise than the rules have them: each sorts the returns by factor.
const MISGROUPED: [(Version, &str); 10] = [
    (
        Version::WithoutExcess,
        "accounts grouped without their excess",
    ),
    (Version::LastGroupLost, "the last group lost"),
    (Version::WeightOnce, "one weight for a whole group"),
    (Version::FactorOnce, "equal factors counted once"),
    (Version::FirstPlaceLost, "the first sorted place lost"),
    (Version::PlaceLost, "a sorted place between lost"),
    (Version::LastPlaceLost, "the last sorted place lost"),
    (Version::Room63, "room for 63 sorted places"),
    (
        Version::BalanceZero,
        "the groups of balance 0 for each balance",
    ),
    (
        Version::BalanceBefore,
        "the groups of the balance before each",
    ),
];

fn misgroups(version: Version) -> bool {
    MISGROUPED.iter().any(|(other, _)| *other == version)
}

/// The returns of a version, in the order it goes through them. A place that is lost holds the
/// one beside it.
fn gone_through(version: Version, mut returns: Vec<(u64, u64)>) -> Vec<(u64, u64)> {
    if !misgroups(version) {
        return returns;
    }
    returns.sort_unstable();
    let last = returns.len() - 1;
    match version {
        Version::FactorOnce => returns.dedup_by_key(|r| r.0),
        Version::FirstPlaceLost => returns[0] = returns[last.min(1)],
        Version::PlaceLost => returns[last / 2] = returns[(last / 2).saturating_sub(1)],
        Version::LastPlaceLost => returns[last] = returns[last.saturating_sub(1)],
        Version::Room63 => returns.truncate(63),
        _ => {}
    }
    returns
}

/// Payment at death otherwise than the rules have it.
const MISTAKEN: [(Version, &str); 8] = [
    (Version::PeriodLate, "the rates a period late"),
    (Version::PeriodEarly, "the rates a period early"),
    (Version::FirstReturnWithout, "no rate on the first return"),
    (Version::GuaranteeAlone, "the guarantee alone paid at death"),
    (Version::AccountAlone, "the account alone paid at death"),
    (Version::RoundedLater, "death rounded after the weights"),
    (Version::ExcessNotAtDeath, "no excess paid at death"),
    (Version::Exchanged, "rate and complement exchanged"),
];

/// A contract with its returns and death rates, valued by a version of the rules.
struct Model<'a> {
    c: &'a Fields,
    returns: Vec<(u64, u64)>,
    rates: Vec<u64>,
    version: Version,
}

impl Model<'_> {
    /// The rate that counts in a period.
    fn rate(&self, period: u64) -> u64 {
        let rate = |period: u64| *self.rates.get(period as usize).unwrap_or(&0);
        match self.version {
            Version::PeriodLate => period.checked_sub(1).map_or(0, rate),
            Version::PeriodEarly => rate(period + 1),
            Version::FirstReturnWithout if period == 0 => 0,
            Version::Exchanged => 10_000 - rate(period),
            _ => rate(period),
        }
    }

    /// A value reached with death in it, times 10,000.
    fn reached(&self, rate: u64, value: u64, guarantee: u64, lifted: u64) -> u64 {
        let account = lifted.min(self.c.top);
        let excess = match self.version {
            Version::ExcessDropped => 0,
            _ => lifted - account,
        };
        let paid = match self.version {
            Version::GuaranteeAlone => guarantee + excess,
            Version::AccountAlone => account + excess,
            Version::ExcessNotAtDeath => account.max(guarantee),
            _ => account.max(guarantee) + excess,
        };
        let mixed = (10_000 - rate) * (value + 10_000 * excess) + rate * 10_000 * paid;
        match self.version {
            Version::RoundedLater => mixed,
            _ => mixed / 10_000 * 10_000,
        }
    }

    /// Where the groups of a version that groups are lifted to, each with its weight. The returns
    /// are sorted.
    fn groups(&self, balance: u64) -> Vec<(u64, u64)> {
        let (c, mut held) = (self.c, None);
        let mut groups: Vec<(u64, u64)> = Vec::new();
        for (factor, weight) in &self.returns {
            let mark = match self.version {
                Version::WithoutExcess => c.account_after(balance, *factor),
                Version::BalanceZero => c.lifted(0, *factor),
                Version::BalanceBefore => c.lifted(balance.saturating_sub(1), *factor),
                _ => c.lifted(balance, *factor),
            };
            match groups.last_mut().filter(|_| held == Some(mark)) {
                Some(_) if self.version == Version::WeightOnce => {}
                Some(group) => group.1 += weight,
                None => groups.push((c.lifted(balance, *factor), *weight)),
            }
            held = Some(mark);
        }
        if self.version == Version::LastGroupLost {
            groups.pop();
        }
        groups
    }

    /// The discounted sum over the returns of a period.
    fn average(&self, period: u64, next: &[u64], balance: u64, guarantee: u64) -> u64 {
        let (c, rate) = (self.c, self.rate(period));
        let share = |(lifted, weight): (u64, u64)| {
            let value = next[(lifted.min(c.top) * (c.premium + 1) + guarantee) as usize];
            u128::from(weight) * u128::from(self.reached(rate, value, guarantee, lifted))
        };
        let sum: u128 = if misgroups(self.version) {
            self.groups(balance).into_iter().map(share).sum()
        } else {
            let led = self.returns.iter().map(|r| (c.lifted(balance, r.0), r.1));
            led.map(share).sum()
        };
        (u128::from(c.discount) * sum / 100_000_000_000_000) as u64
    }

    /// Value, values of date 1 and amounts. The states are those of the table; `open` gives the
    /// amounts to choose from in one, smallest first.
    fn valued(
        &self,
        states: &[Drawn],
        open: impl Fn(&Drawn) -> Vec<u64>,
    ) -> (u64, Vec<u64>, Vec<u16>) {
        let c = self.c;
        let matured = |entry: u64| {
            let (_, account, guarantee) = c.state(entry);
            10_000 * account.max(guarantee)
        };
        let mut next: Vec<u64> = (0..c.layer()).map(matured).collect();
        let mut amounts = Vec::new();
        for layer in states.chunks(c.layer() as usize).rev() {
            let best = |state: &Drawn| {
                let worth = |amount: &u64| {
                    let amount = *amount;
                    let drawn = Drawn { amount, ..*state };
                    let (balance, guarantee) = (drawn.balance_after(), drawn.guarantee_after(c));
                    drawn.cash(c) + self.average(state.date, &next, balance, guarantee)
                };
                // The last of the largest, so the smallest amount where they go downwards.
                let amount = open(state).into_iter().rev().max_by_key(worth).unwrap_or(0);
                (worth(&amount), amount as u16)
            };
            let (values, drawn): (Vec<u64>, Vec<u16>) = layer.iter().map(best).unzip();
            next = values;
            amounts.splice(0..0, drawn);
        }
        let value = self.average(0, &next, c.premium, c.premium);
        (value, next, amounts)
    }
}

/// Whether a contract is small enough to be valued by other versions too.
fn compared(c: &Fields) -> bool {
    c.table() <= MOST_COMPARED && c.layer() <= MOST_COMPARED
}

/// A valuation by a version of the rules: value, values of date 1 and amounts. `left` is its
/// table after the call.
fn by_version(
    c: &Fields,
    operation: &Operation,
    left: &[u16],
    version: Version,
) -> (u64, Vec<u64>, Vec<u16>) {
    let states = drawn_in_table(c, left);
    let model = Model {
        c,
        returns: gone_through(version, returns(list_of(operation))),
        rates: death_rates(rates_of(operation).unwrap_or(&[])),
        version,
    };
    match behaviour_of(operation) {
        Some(behaviour) => model.valued(&states, |state| open(c, behaviour, state)),
        None => model.valued(&states, |state| vec![state.amount]),
    }
}

fn behaviour_of(operation: &Operation) -> Option<u64> {
    match operation {
        Operation::Value(v) | Operation::ValueMap(v, _) => Some(v.behaviour),
        Operation::ValueNoTable { behaviour, .. } | Operation::Fee { behaviour, .. } => {
            Some(*behaviour)
        }
        _ => None,
    }
}

const BESIDE_DROPPED: [&str; 2] = ["worth more than", "worth as much as"];

fn beside_dropped(name: &str, how: &str, behaviour: Option<u64>) -> String {
    let under = behaviour.map_or(String::new(), |b| format!(" under behaviour {b}"));
    format!("{name} {how} with the excess dropped{under}")
}

/// Whether a small contract with a return above top has a value or amounts other than those with
/// the excess dropped. `left` is its table after the call, `value` what is answered.
fn count_beside_dropped(
    tally: &mut Tally,
    c: &Fields,
    operation: &Operation,
    left: &[u16],
    value: u64,
) {
    let (name, behaviour) = (name_of(operation), behaviour_of(operation));
    let (plain, _, amounts) = by_version(c, operation, left, Version::ExcessDropped);
    for (how, holds) in BESIDE_DROPPED.iter().zip([value > plain, value == plain]) {
        if holds {
            count(tally, beside_dropped(name, how, behaviour));
        }
    }
    if left[..amounts.len()] != amounts {
        count(tally, beside_dropped(name, OTHERWISE, behaviour));
    }
}

const OTHERWISE: &str = "drawing otherwise than";

/// What an accepted valuation or walk has of returns that lift an account above top, and what a
/// booking has of accounts at top.
fn count_lifted(tally: &mut Tally, c: &Fields, operation: &Operation, left: &[u16], answer: &str) {
    let (name, list) = (name_of(operation), list_of(operation));
    match operation {
        Operation::Check { .. }
        | Operation::Sizes { .. }
        | Operation::ValueNoTable { .. }
        | Operation::Fee { .. } => {}
        Operation::Book { account, .. } => {
            if *account == c.top {
                count(tally, AT_TOP.to_string());
            }
        }
        Operation::Walk { table, numbers, .. } => {
            let met = drawn_on_walk(c, list, table, numbers);
            let holds = passed_holds(c, list, &met, numbers);
            count_held(tally, &PASSED, &holds, |how| passed(how));
            let lifted = lifted_on_walk(c, list, &met, numbers);
            if c.top == 4_000 && lifted.iter().any(|l| *l > c.top) {
                count(tally, past_highest(name));
            }
        }
        _ => {
            let holds = lifted_holds(c, list);
            count_held(tally, &LIFTED, &holds, |how| with(name, how));
            let above = returns(list).iter().any(|r| c.lifted(c.top, r.0) > c.top);
            if c.top == 4_000 && c.dates > 1 && above {
                count(tally, past_highest(name));
            }
            if let Some(value) = figure_in(answer).filter(|_| above && c.table() <= MOST_COMPARED) {
                count_beside_dropped(tally, c, operation, left, value);
            }
        }
    }
}

const PERIODS: [&str; 3] = ["the first period", "a period between", "the last period"];
const RATES: [&str; 4] = ["0", "1", "2 to 9,999", "10,000"];

fn rate_in(name: &str, rate: &str, period: &str) -> String {
    format!("{name} with a death rate of {rate} in {period}")
}

/// The cases of the rates themselves: three periods or more, not all rates zero.
fn count_rates(tally: &mut Tally, name: &str, rates: &[u64]) {
    let last = rates.len() - 1;
    if last < 2 || rates.iter().all(|rate| *rate == 0) {
        return;
    }
    let parts = [&rates[..1], &rates[1..last], &rates[last..]];
    for (period, part) in PERIODS.iter().zip(parts) {
        let between = |rate: &u64| (2..10_000).contains(rate);
        let holds = [
            part.contains(&0),
            part.contains(&1),
            part.iter().any(between),
            part.contains(&10_000),
        ];
        count_held(tally, &RATES, &holds, |rate| rate_in(name, rate, period));
    }
}

const DEATHS: [&str; 11] = [
    "zero death rates",
    "a death rate in one period only, of several",
    "a death on the first return below the guarantee",
    "a death on the first return at the guarantee",
    "a death on the first return above the guarantee",
    "a death past top on the first return",
    "a death past top on a return between",
    "a death past top on the last return",
    "a death past top, N 1",
    "death rates for N 40",
    "the first layer other than with deaths in it",
];

/// `first` has the values of date 1, where they are at hand.
fn deaths_hold(c: &Fields, list: &[u8], rates: &[u64], first: Option<&[u64]>) -> [bool; 11] {
    let returns = returns(list);
    let dies = |from: usize, to: usize| rates[from..to].iter().any(|rate| *rate > 0);
    let (last, deaths) = (rates.len() - 1, rates.iter().filter(|r| **r > 0).count());
    let reaches = |holds: &dyn Fn(u64) -> bool, balance: u64| {
        let mut lifted = returns.iter().map(|r| c.lifted(balance, r.0));
        lifted.any(holds)
    };
    let first_past_top = dies(0, 1) && reaches(&|l| l > c.top, c.premium);
    let past_top = reaches(&|l| l > c.top, c.top);
    let with_deaths = |(entry, value): (u64, &u64)| {
        let (_, account, guarantee) = c.state(entry);
        let paid = rates[0] * 10_000 * account.max(guarantee);
        ((10_000 - rates[0]) * value + paid) / 10_000 != *value
    };
    [
        deaths == 0,
        deaths == 1 && last > 0,
        dies(0, 1) && reaches(&|l| l < c.premium, c.premium),
        dies(0, 1) && reaches(&|l| l == c.premium, c.premium),
        dies(0, 1) && reaches(&|l| l > c.premium, c.premium),
        last > 0 && first_past_top,
        last > 1 && dies(1, last) && past_top,
        last > 0 && dies(last, last + 1) && past_top,
        last == 0 && first_past_top,
        last == 39 && deaths > 0,
        first.is_some_and(|values| (0..).zip(values).any(with_deaths)),
    ]
}

fn mistaken(name: &str, how: &str) -> String {
    format!("{name} worth otherwise than with {how}")
}

/// What an accepted valuation has of death rates. A small one is valued anew by the rules, and
/// where there are rates by what they are not. Gives whether the rules have the same value.
fn count_deaths(
    tally: &mut Tally,
    c: &Fields,
    operation: &Operation,
    left: &[u16],
    answer: &str,
) -> bool {
    let Some(rates) = rates_of(operation).map(death_rates) else {
        return true;
    };
    let (name, list) = (name_of(operation), list_of(operation));
    count_rates(tally, name, &rates);
    let ruled = compared(c).then(|| by_version(c, operation, left, Version::Rules));
    let first = ruled.as_ref().map(|(_, first, _)| &first[..]);
    let holds = deaths_hold(c, list, &rates, first);
    count_held(tally, &DEATHS, &holds, |how| with(name, how));
    let Some((value, _, amounts)) = ruled else {
        return true;
    };
    for (version, how) in MISTAKEN.iter().filter(|_| rates.iter().any(|r| *r > 0)) {
        if by_version(c, operation, left, *version).0 != value {
            count(tally, mistaken(name, how));
        }
    }
    figure_in(answer) == Some(value) && left[..amounts.len()] == amounts
}

/// The first figure behind number and place: the value of a valuation, the fee of a search.
fn figure_in(answer: &str) -> Option<u64> {
    answer.split(' ').nth(2).and_then(|word| word.parse().ok())
}

/// Fee and value that a search finds; none where it finds no fee.
type Found = Option<(u64, u64)>;

/// Value and values of date 1 of a contract at a fee.
fn at_fee(c: &Fields, operation: &Operation, fee: u64) -> (u64, Vec<u64>) {
    let c = Fields { fee, ..*c };
    let undrawn = vec![0; c.table() as usize];
    let (value, first, _) = by_version(&c, operation, &undrawn, Version::Rules);
    (value, first)
}

/// The fees of a contract with their values. That a larger fee never gives more is relied on
/// here; the second program, whose answers are compared, does not.
struct Fees<'a> {
    c: Fields,
    operation: &'a Operation,
    values: BTreeMap<u64, u64>,
}

impl Fees<'_> {
    fn of(c: Fields, operation: &Operation) -> Fees<'_> {
        let values = BTreeMap::new();
        Fees {
            c,
            operation,
            values,
        }
    }

    fn value(&mut self, fee: u64) -> u64 {
        let (c, operation) = (&self.c, self.operation);
        let value = || at_fee(c, operation, fee).0;
        *self.values.entry(fee).or_insert_with(value)
    }

    /// By halving the fees from `from` to 10,000, as long as `further` says of the steps made and
    /// the fees left behind the first.
    fn halved(&mut self, from: u64, wanted: u64, further: fn(u64, u64) -> bool) -> Found {
        let (mut from, mut to) = (from, 10_000);
        if self.value(to) > wanted {
            return None;
        }
        let mut steps = 0;
        while further(steps, to - from) {
            let between = (from + to) / 2;
            if self.value(between) <= wanted {
                to = between;
            } else {
                from = between + 1;
            }
            steps += 1;
        }
        Some((to, self.value(to)))
    }

    /// The smallest fee, of those from `from` on, whose value is at most `wanted`.
    fn smallest(&mut self, from: u64, wanted: u64) -> Found {
        self.halved(from, wanted, |_, left| left > 0)
    }
}

/// Searches otherwise than the rules have them. That fee 10,000 is never tried cannot be seen. At
/// 9,999 no return leads to more than an account of 1 on date 1, and beside the premium's guarantee
/// that is worth what 0 is: the two fees give one value.
const MISLED: [(fn(&mut Fees, u64) -> Found, &str); 10] = [
    (largest_above, "the largest fee that exceeds"),
    (below, "below in place of at most"),
    (first_left_out, "fee 0 never tried"),
    (from_own, "the fees from the record's on"),
    (own_for_all, "the record's fee in place of each"),
    (value_before, "the value of the fee before"),
    (one_left, "a bisection that stops one step early"),
    (thirteen_steps, "a bisection of 13 steps"),
    (narrow_wanted, "wanted cut to 32 bits"),
    (signed_wanted, "wanted below 0 from 2^63 on"),
];

fn largest_above(fees: &mut Fees, wanted: u64) -> Found {
    let smallest = fees.smallest(0, wanted).map_or(10_001, |(fee, _)| fee);
    smallest.checked_sub(1).map(|fee| (fee, fees.value(fee)))
}

fn below(fees: &mut Fees, wanted: u64) -> Found {
    wanted
        .checked_sub(1)
        .and_then(|most| fees.smallest(0, most))
}

fn first_left_out(fees: &mut Fees, wanted: u64) -> Found {
    fees.smallest(1, wanted)
}

fn from_own(fees: &mut Fees, wanted: u64) -> Found {
    fees.smallest(fees.c.fee, wanted)
}

fn own_for_all(fees: &mut Fees, wanted: u64) -> Found {
    let value = fees.value(fees.c.fee);
    (value <= wanted).then_some((0, value))
}

fn value_before(fees: &mut Fees, wanted: u64) -> Found {
    let (fee, _) = fees.smallest(0, wanted)?;
    Some((fee, fees.value(fee.saturating_sub(1))))
}

fn one_left(fees: &mut Fees, wanted: u64) -> Found {
    fees.halved(0, wanted, |_, left| left > 1)
}

fn thirteen_steps(fees: &mut Fees, wanted: u64) -> Found {
    fees.halved(0, wanted, |steps, left| steps < 13 && left > 0)
}

fn narrow_wanted(fees: &mut Fees, wanted: u64) -> Found {
    fees.smallest(0, wanted % (1 << 32))
}

fn signed_wanted(fees: &mut Fees, wanted: u64) -> Found {
    fees.smallest(0, wanted).filter(|_| wanted < 1 << 63)
}

/// What a search has of its input, taken for something else.
const LEFT_OUT: [(fn(&mut Operation), &str); 3] = [
    (without_rates, "zero death rates"),
    (without_step, "no penalty step"),
    (as_static, "static withdrawals"),
];

fn without_rates(operation: &mut Operation) {
    if let Operation::Fee { rates, .. } = operation {
        rates.fill(0);
    }
}

fn without_step(operation: &mut Operation) {
    if let Operation::Fee { record, .. } = operation {
        record[16..18].fill(0);
    }
}

fn as_static(operation: &mut Operation) {
    if let Operation::Fee { behaviour, .. } = operation {
        *behaviour = 0;
    }
}

fn misled(how: &str) -> String {
    format!("fee answered otherwise than with {how}")
}

/// The digest of the working slice after a search that finds `found`; and what it would be with
/// the slice as the last valuation leaves it.
fn digests_left(c: &Fields, operation: &Operation, work: &[u64], found: Found) -> (u64, u64) {
    let (layer, mut left) = (c.layer() as usize, work.to_vec());
    left[..2 * layer].fill(0);
    let cleared = digest(&left);
    let last = found.map_or(10_000, |(fee, _)| fee);
    left[..layer].copy_from_slice(&at_fee(c, operation, last).1);
    (cleared, digest(&left))
}

const LEFT_VALUED: [&str; 2] = [
    "the working slice as a valuation leaves it, a fee found",
    "the working slice as a valuation leaves it, no fee found",
];

/// A search by the rules, and by what they are not. Gives whether the rules have the answer.
fn count_misled(
    tally: &mut Tally,
    fees: &mut Fees,
    (wanted, work): (u64, &[u64]),
    answer: &str,
) -> bool {
    let (c, operation) = (fees.c, fees.operation);
    let found = fees.smallest(0, wanted);
    for (_, how) in MISLED
        .iter()
        .filter(|(version, _)| version(fees, wanted) != found)
    {
        count(tally, misled(how));
    }
    for (leave_out, how) in LEFT_OUT {
        let mut other = operation.clone();
        leave_out(&mut other);
        let c = Fields::of(record_of(&other));
        if Fees::of(c, &other).smallest(0, wanted) != found {
            count(tally, misled(how));
        }
    }
    let (cleared, valued) = digests_left(&c, operation, work, found);
    if cleared != valued {
        count(tally, misled(LEFT_VALUED[usize::from(found.is_none())]));
    }
    let told = match found {
        Some((fee, value)) => {
            let margin = value as i64 - 10_000 * c.premium as i64;
            format!("0 0 {fee} {value} {margin}")
        }
        None => "19 0 0 0 0".to_string(),
    };
    answer == format!("{told} {cleared}")
}

/// How a wanted value lies beside the values of fees, under each behaviour.
const WANTED: [&str; 6] = [
    "wanted at the value found",
    "wanted one above the value found",
    "wanted one below the value of the fee before",
    "wanted one below the least value",
    "fee 0 found",
    "several fees of the value found",
];

fn wanted_case(how: &str, behaviour: u64) -> String {
    format!("fee with {how} under behaviour {behaviour}")
}

fn wanted_holds(fees: &mut Fees, wanted: u64) -> [bool; 6] {
    let Some((fee, value)) = fees.smallest(0, wanted) else {
        let least = fees.value(10_000);
        return [false, false, false, least == wanted + 1, false, false];
    };
    let before = fee.checked_sub(1).map(|fee| fees.value(fee));
    [
        value == wanted,
        value.checked_add(1) == Some(wanted),
        before.is_some_and(|before| before - 1 == wanted),
        false,
        fee == 0,
        fee < 10_000 && fees.value(fee + 1) == value,
    ]
}

/// What the input of a search has.
const SEARCHED: [&str; 16] = [
    "wanted 0",
    "wanted 2^64 - 1",
    "N 1",
    "N 40",
    "64 returns",
    "equal factors",
    "top 4,000",
    "the record's fee 0",
    "the record's fee 10,000",
    "the record's fee below the one found",
    "the record's fee the one found",
    "the record's fee above the one found",
    "a fee above 9,000 found",
    "a working slice just long enough",
    "a longer working slice, a fee found",
    "a longer working slice, no fee found",
];

/// `found` is the fee found.
fn searched_holds(c: &Fields, operation: &Operation, found: Option<u64>) -> [bool; 16] {
    let Operation::Fee { wanted, work, .. } = operation else {
        return [false; 16];
    };
    let mut factors: Vec<u64> = returns(list_of(operation)).iter().map(|r| r.0).collect();
    factors.sort_unstable();
    let longer = work.len() as u64 > 2 * c.layer();
    [
        *wanted == 0,
        *wanted == u64::MAX,
        c.dates == 1,
        c.dates == 40,
        factors.len() == 64,
        factors.windows(2).any(|w| w[0] == w[1]),
        c.top == 4_000,
        c.fee == 0,
        c.fee == 10_000,
        found.is_some_and(|fee| c.fee < fee),
        found == Some(c.fee),
        found.is_some_and(|fee| c.fee > fee),
        found.is_some_and(|fee| fee > 9_000),
        !longer,
        longer && found.is_some(),
        longer && found.is_none(),
    ]
}

/// The cases of a search that is made, a fee found or not. Gives whether the answer is that of
/// the rules, where they are followed here.
fn count_searched(tally: &mut Tally, c: &Fields, operation: &Operation, answer: &str) -> bool {
    let Operation::Fee {
        behaviour,
        wanted,
        work,
        ..
    } = operation
    else {
        return true;
    };
    let found = figure_in(answer).filter(|_| number_of(answer) == 0);
    let holds = searched_holds(c, operation, found);
    count_held(tally, &SEARCHED, &holds, |how| with("fee", how));
    count(tally, dates_case("searched", c.dates, *behaviour));
    let rates = death_rates(rates_of(operation).unwrap_or(&[]));
    count_rates(tally, "fee", &rates);
    if let Some(fee) = found {
        let holds = lifted_holds(&Fields { fee, ..*c }, list_of(operation));
        count_held(tally, &LIFTED, &holds, |how| with("fee", how));
    }
    if !compared(c) {
        return true;
    }
    let mut fees = Fees::of(*c, operation);
    let holds = wanted_holds(&mut fees, *wanted);
    count_held(tally, &WANTED, &holds, |how| wanted_case(how, *behaviour));
    count_misled(tally, &mut fees, (*wanted, work), answer)
}

/// How the returns of a valuation with decision dates stand in the list, and where they lead from
/// balances of 1 or more.
const GROUPED: [&str; 18] = [
    "three factors or more that rise",
    "three factors or more that fall",
    "factors that neither rise nor fall",
    "64 factors that rise, to 20 accounts and excesses or more",
    "64 factors that fall, to 20 accounts and excesses or more",
    "64 factors that neither rise nor fall, to 20 accounts and excesses or more",
    "equal factors side by side",
    "equal factors apart",
    "three equal factors",
    "64 equal factors",
    "different factors to one account below top",
    "different factors to one excess",
    "different excesses",
    "a return to top beside one above it",
    "ten returns or more to one account",
    "64 returns to one account",
    "returns that join from a balance and part from another",
    "returns that part from every balance but 0",
];

fn grouped_holds(c: &Fields, list: &[u8]) -> [bool; 18] {
    let returns = returns(list);
    let factors: Vec<u64> = returns.iter().map(|r| r.0).collect();
    let count = factors.len();
    let (rise, fall) = (
        factors.windows(2).all(|f| f[0] < f[1]),
        factors.windows(2).all(|f| f[0] > f[1]),
    );
    let mut sorted = factors.clone();
    sorted.sort_unstable();
    let three_equal = sorted.windows(3).any(|f| f[0] == f[2]);
    let beside = factors.windows(2).any(|f| f[0] == f[1]);
    let apart = (0..count)
        .flat_map(|i| (i + 2..count).map(move |k| (i, k)))
        .any(|(i, k)| {
            factors[i] == factors[k] && factors[i + 1..k].iter().any(|f| *f != factors[i])
        });
    sorted.dedup();
    let different = sorted.len();
    // From a balance, where each of the different factors leads.
    let led = |balance: u64| -> Vec<u64> { sorted.iter().map(|f| c.lifted(balance, *f)).collect() };
    let from_some = |holds: &dyn Fn(&[u64]) -> bool| (1..=c.top).any(|b| holds(&led(b)));
    let joins = |l: &[u64]| l.windows(2).any(|l| l[0] == l[1]);
    let spread = from_some(&|l| l.windows(2).filter(|l| l[0] != l[1]).count() >= 19);
    let most_to_one = |balance: u64| {
        let to = |account: u64| move |f: &&u64| c.account_after(balance, **f) == account;
        let accounts = 0..=c.top;
        let counts = accounts.map(|account| factors.iter().filter(to(account)).count());
        counts.max().unwrap_or(0)
    };
    let to_one = (1..=c.top).map(most_to_one).max().unwrap_or(0);
    let holds = [
        different > 2 && rise,
        different > 2 && fall,
        !rise && !fall && different > 2,
        different == 64 && rise && spread,
        different == 64 && fall && spread,
        different == 64 && !rise && !fall && spread,
        beside,
        apart,
        three_equal,
        count == 64 && different == 1,
        from_some(&|l| l.windows(2).any(|l| l[0] == l[1] && l[0] < c.top)),
        from_some(&|l| l.windows(2).any(|l| l[0] == l[1] && l[0] > c.top)),
        from_some(&|l| l.windows(2).any(|l| l[0] != l[1] && l[0] > c.top)),
        from_some(&|l| l.contains(&c.top) && l.iter().any(|l| *l > c.top)),
        to_one >= 10 && different >= 10,
        to_one == 64 && different == 64,
        from_some(&joins) && from_some(&|l| l.windows(2).all(|l| l[0] != l[1])) && different > 1,
        different > 1 && !from_some(&joins),
    ];
    holds.map(|holds| holds && c.dates > 1)
}

/// What was asked before, by all but the order of the list and how equal factors share their
/// weight: the lists, and the answer to the first.
type Asked = BTreeMap<String, (Vec<Vec<u8>>, String)>;

const AGAIN: [&str; 2] = ["in another order", "with equal factors split or joined"];
const DEATHS_OR_NONE: [&str; 2] = ["zero death rates", "death rates"];

fn again(name: &str, how: &str, with: &str) -> String {
    format!("{name} of returns {how}, {with}")
}

/// The returns of a list that is asked for in each of its orders: how many, of how many factors.
const EVERY_ORDER: [(usize, usize); 2] = [(3, 3), (4, 3)];

fn every_order(name: &str, (count, factors): (usize, usize)) -> String {
    format!("{name} of {count} returns of {factors} factors in every order")
}

fn misgrouped(name: &str, how: &str) -> String {
    format!("{name} of returns in another list worth otherwise than with {how}")
}

/// What the answer of an accepted valuation depends on, its list as weights by factor. None where
/// a slice is longer than needed: the answer tells of all entries, also those left as they were.
fn asked_of(c: &Fields, operation: &Operation) -> Option<String> {
    let (name, record, rates) = (
        name_of(operation),
        record_of(operation),
        rates_of(operation)?,
    );
    let mut weights: BTreeMap<u64, u64> = BTreeMap::new();
    for (factor, weight) in returns(list_of(operation)) {
        *weights.entry(factor).or_default() += weight;
    }
    let exact = |length: usize, needed: u64| length as u64 == needed;
    let (wanted, whole) = match operation {
        Operation::Value(v) => (0, exact(v.table.len(), c.table())),
        Operation::ValueMap(v, map) => {
            let whole = exact(v.table.len(), c.table()) && exact(map.len(), c.map());
            (0, whole)
        }
        Operation::ValueNoTable { .. } => (0, true),
        Operation::Fee { wanted, .. } => (*wanted, true),
        Operation::ValueTable { table, .. } => (digest(table), true),
        _ => return None,
    };
    let (work, needed) = stored_in(c, operation)?;
    let behaviour = behaviour_of(operation);
    let asked = format!("{name} {record:?} {weights:?} {rates:?} {behaviour:?} {wanted}");
    (whole && exact(work.len(), needed)).then_some(asked)
}

/// How the returns of an accepted valuation stand and lead; where the same ones were asked for
/// before in another list, also what a wrong grouping would give. Gives whether they were answered
/// alike.
fn count_grouped(
    tally: &mut Tally,
    asked: &mut Asked,
    (c, operation): (&Fields, &Operation),
    left: &[u16],
    answer: &str,
) -> bool {
    let (name, list) = (name_of(operation), list_of(operation));
    let Some(rates) = rates_of(operation) else {
        return true;
    };
    if c.top <= MOST_COMPARED {
        let holds = grouped_holds(c, list);
        count_held(tally, &GROUPED, &holds, |how| with(name, how));
    }
    let Some(key) = asked_of(c, operation) else {
        return true;
    };
    let (lists, first) = asked
        .entry(key)
        .or_insert_with(|| (Vec::new(), answer.to_string()));
    if lists.iter().any(|other| other == list) {
        return first == answer;
    }
    let sorted = |list: &[u8]| {
        let mut returns = returns(list);
        returns.sort_unstable();
        returns
    };
    let orders = lists.iter().filter(|o| sorted(o) == sorted(list)).count() + 1;
    let (how, is_first) = (AGAIN[usize::from(orders == 1)], lists.is_empty());
    lists.push(list.to_vec());
    if is_first {
        return true;
    }
    let mut factors: Vec<u64> = sorted(list).iter().map(|r| r.0).collect();
    factors.dedup();
    let kind = (list.len() / 4, factors.len());
    if EVERY_ORDER.contains(&kind) && orders == (1..=kind.0).product() {
        count(tally, every_order(name, kind));
    }
    let deaths = DEATHS_OR_NONE[usize::from(rates.iter().any(|byte| *byte > 0))];
    count(tally, again(name, how, deaths));
    if let Some(behaviour) = behaviour_of(operation) {
        count(tally, again(name, how, &format!("behaviour {behaviour}")));
    }
    if compared(c) {
        count_misgrouped(tally, c, operation, left, answer);
    }
    first == answer
}

/// A search is looked at by the value at the fee found. A valuation without a table leaves none.
fn count_misgrouped(
    tally: &mut Tally,
    c: &Fields,
    operation: &Operation,
    left: &[u16],
    answer: &str,
) {
    let undrawn = vec![0; c.table() as usize];
    let (c, left) = match (operation, figure_in(answer)) {
        (Operation::Fee { .. }, Some(fee)) => (Fields { fee, ..*c }, &undrawn[..]),
        (Operation::ValueNoTable { .. }, _) => (*c, &undrawn[..]),
        _ => (*c, left),
    };
    let value = |version: Version| by_version(&c, operation, left, version).0;
    let ruled = value(Version::Rules);
    for (_, how) in MISGROUPED.iter().filter(|(v, _)| value(*v) != ruled) {
        count(tally, misgrouped(name_of(operation), how));
    }
}

const AT_TOP: &str = "book at an account of top";

fn past_highest(name: &str) -> String {
    format!("{name} with a return above a top of 4,000")
}

/// The working slice or the cash that an operation is lent, if any, and the entries it needs.
fn stored_in<'a>(c: &Fields, operation: &'a Operation) -> Option<(&'a [u64], u64)> {
    match operation {
        Operation::Check { .. } | Operation::Sizes { .. } | Operation::Book { .. } => None,
        Operation::Value(v) | Operation::ValueMap(v, _) => Some((&v.work, 2 * c.layer())),
        Operation::ValueNoTable { work, .. }
        | Operation::Fee { work, .. }
        | Operation::ValueTable { work, .. } => Some((work, 2 * c.layer())),
        Operation::Walk { cash, .. } => Some((cash, c.dates)),
    }
}

const WIDE: [&str; 3] = ["overwritten", "beyond those needed", "left by a refusal"];

fn wide(name: &str, which: &str) -> String {
    format!("{name} with entries above 2^32 {which}")
}

/// Where the working slice or the cash holds entries above 2^32 before the call: so that half
/// an entry written or cleared is seen. 19 is "the one refusal that changes a working slice".
fn count_wide(tally: &mut Tally, c: &Fields, operation: &Operation, number: u64) {
    let Some((entries, needed)) = stored_in(c, operation) else {
        return;
    };
    let parts = match number {
        0 | 19 => {
            let (overwritten, beyond) = entries.split_at(needed as usize);
            [overwritten, beyond, &[]]
        }
        _ => [&[], &[], entries],
    };
    for (which, part) in WIDE.iter().zip(parts) {
        if !part.is_empty() && part.iter().all(|x| *x > 1 << 32) {
            count(tally, wide(name_of(operation), which));
        }
    }
}

/// What a refusal by short slices has that the script is to have somewhere.
fn count_short(tally: &mut Tally, c: &Fields, operation: &Operation) {
    if c.top == 4_000 {
        count(
            tally,
            format!("top 4,000: {}", refusal(name_of(operation), 11)),
        );
    }
    if let Operation::Value(v) = operation {
        let (work, table) = (v.work.len() as u64, v.table.len() as u64);
        if work + 1 == 2 * c.layer() && table >= c.table() {
            count(tally, "a working slice one entry short".to_string());
        }
        if table + 1 == c.table() && work >= 2 * c.layer() {
            count(tally, "a table one entry short".to_string());
        }
    }
    if let Operation::Fee { work, .. } | Operation::ValueNoTable { work, .. } = operation {
        let (lent, name) = (work.len() as u64, name_of(operation));
        let holds = [lent == 0, lent == c.layer(), lent + 1 == 2 * c.layer()];
        count_held(tally, &SHORT_WORK, &holds, |how| with(name, how));
    }
}

const SHORT_WORK: [&str; 3] = [
    "no working slice",
    "a working slice of one layer",
    "a working slice one entry short",
];

/// What a refusal by 16 has that the script is to have somewhere.
fn count_short_map(tally: &mut Tally, c: &Fields, map: &[u64]) {
    if map.is_empty() {
        count(tally, "no map".to_string());
    }
    if map.len() as u64 + 1 == c.map() {
        count(tally, "a map one word short".to_string());
        if c.table() % 64 == 1 {
            count(tally, "a map short by a word of one entry".to_string());
        }
    }
}

/// What a refusal by 15 has that the script is to have somewhere.
fn count_added(tally: &mut Tally, c: &Fields) {
    for (case, holds) in [
        ("step 10,001", c.step == 10_001 && c.spare == 0),
        ("spare bytes 1, 0", c.step <= 10_000 && c.spare == 1),
        ("spare bytes 0, 1", c.step <= 10_000 && c.spare == 256),
        ("step and spare bytes", c.step > 10_000 && c.spare != 0),
    ] {
        if holds {
            count(tally, format!("{case} refused with 15"));
        }
    }
}

/// What the sizes of a contract's slices are to be of somewhere.
const SIZED: [&str; 8] = [
    "no table, N 1",
    "a table that ends inside a word",
    "a table that ends with a word",
    "a table that ends one entry into a word",
    "the least contract",
    "the largest contract",
    "a working slice of 2^16 entries or more",
    "a map of 2^16 words or more",
];

/// Gives whether the sizes are those of the documents.
fn count_sizes(tally: &mut Tally, c: &Fields, answer: &str) -> bool {
    let (work, table, map) = (2 * c.layer(), c.table(), c.map());
    let shape = [c.top, c.premium, c.dates];
    let holds = [
        table == 0,
        table % 64 > 1,
        table > 0 && table % 64 == 0,
        table % 64 == 1,
        shape == [1, 1, 1],
        shape == [4_000, 4_000, 40],
        work >= 1 << 16,
        map >= 1 << 16,
    ];
    count_held(tally, &SIZED, &holds, |how| with("sizes", how));
    answer == format!("0 0 {work} {table} {map}")
}

/// The cases of a valuation without a table. Gives whether the answer is that of the rules, where
/// they are followed here.
fn count_no_table(tally: &mut Tally, c: &Fields, operation: &Operation, answer: &str) -> bool {
    let Operation::ValueNoTable {
        behaviour, work, ..
    } = operation
    else {
        return true;
    };
    let (name, list) = (name_of(operation), list_of(operation));
    count(tally, dates_case(NO_TABLE, c.dates, *behaviour));
    let holds = no_table_holds(c, list, work);
    count_held(tally, &NO_TABLE_SOMEWHERE, &holds, |how| with(name, how));
    if c.step > 0 && c.dates > 2 {
        count(tally, format!("{NO_TABLE}: {}", rate_case(c, *behaviour)));
    }
    let holds = lifted_holds(c, list);
    count_held(tally, &LIFTED, &holds, |how| with(name, how));
    let rates = death_rates(rates_of(operation).unwrap_or(&[]));
    count_rates(tally, name, &rates);
    let ruled = compared(c).then(|| at_fee(c, operation, c.fee));
    let first = ruled.as_ref().map(|(_, first)| &first[..]);
    let holds = deaths_hold(c, list, &rates, first);
    count_held(tally, &DEATHS, &holds, |how| with(name, how));
    ruled.is_none_or(|ruled| count_ruled(tally, (c, operation), ruled, (work, answer)))
}

/// A small valuation without a table, anew by what the rules are not. Gives whether value and
/// working slice are those of the rules.
fn count_ruled(
    tally: &mut Tally,
    (c, operation): (&Fields, &Operation),
    (value, first): (u64, Vec<u64>),
    (work, answer): (&[u64], &str),
) -> bool {
    let undrawn = vec![0; c.table() as usize];
    for (version, how) in MISTAKEN {
        if by_version(c, operation, &undrawn, version).0 != value {
            count(tally, mistaken(name_of(operation), how));
        }
    }
    let (layer, mut left) = (first.len(), work.to_vec());
    left[..layer].copy_from_slice(&first);
    left[layer..2 * layer].fill(0);
    let margin = value as i64 - 10_000 * c.premium as i64;
    answer == format!("0 0 {value} {margin} {}", digest(&left))
}

const NO_TABLE: &str = "valued without a table";

/// What a valuation without a table has somewhere.
const NO_TABLE_SOMEWHERE: [&str; 8] = [
    "a working slice just long enough",
    "a longer working slice",
    "64 returns",
    "factor 0",
    "factor 30,000",
    "weight 1",
    "weight 10,000",
    "top 4,000",
];

fn no_table_holds(c: &Fields, list: &[u8], work: &[u64]) -> [bool; 8] {
    let returns = returns(list);
    let longer = work.len() as u64 > 2 * c.layer();
    [
        !longer,
        longer,
        returns.len() == 64,
        returns.iter().any(|r| r.0 == 0),
        returns.iter().any(|r| r.0 == 30_000),
        returns.iter().any(|r| r.1 == 1),
        returns.iter().any(|r| r.1 == 10_000),
        c.top == 4_000,
    ]
}

/// The cases of an operation that is accepted; `left` is the table it left. Gives whether the
/// answer is that of the rules, where they are followed here.
fn count_accepted(
    tally: &mut Tally,
    c: &Fields,
    operation: &Operation,
    left: &[u16],
    answer: &str,
) -> bool {
    let name = name_of(operation);
    count(tally, format!("{name} accepted"));
    if c.step > 0 {
        count(tally, format!("{name} accepted with a step"));
    }
    match operation {
        Operation::Fee { .. } => return count_searched(tally, c, operation, answer),
        Operation::Sizes { .. } => return count_sizes(tally, c, answer),
        Operation::ValueNoTable { .. } => return count_no_table(tally, c, operation, answer),
        _ => {}
    }
    match operation {
        Operation::Check { .. } if c.top == 4_000 => {
            count(tally, "top 4,000 passes".to_string());
        }
        Operation::Value(v) => count_valued(tally, c, v),
        Operation::ValueMap(v, map) => {
            count_mapped(tally, c, v, map);
            count_surrendered(tally, c, v.behaviour, left);
        }
        _ => {}
    }
    count_fallen(tally, c, operation);
    count_lifted(tally, c, operation, left, answer);
    count_deaths(tally, c, operation, left, answer)
}

const LENGTHS: [&str; 6] = [
    "no rates",
    "one byte of rates short",
    "one rate short",
    "one byte of rates more",
    "one rate more",
    "twice the rates or more",
];

/// What a refusal by 17 has that the script is to have.
fn count_lengths(tally: &mut Tally, c: &Fields, name: &str, rates: &[u8]) {
    let (length, needed) = (rates.len() as u64, 2 * c.dates);
    let holds = [
        length == 0,
        length + 1 == needed,
        length + 2 == needed,
        length == needed + 1,
        length == needed + 2,
        length >= 2 * needed,
    ];
    count_held(tally, &LENGTHS, &holds, |how| with(name, how));
}

const ABOVE: [&str; 7] = [
    "the only rate above 10,000",
    "the first rate above 10,000",
    "a rate between above 10,000",
    "the last rate above 10,000",
    "several rates above 10,000",
    "a rate of 10,001",
    "a rate of 65,535",
];

/// What a refusal by 18 has that the script is to have. Gives whether its place is the index of
/// the first rate above 10,000.
fn count_above(tally: &mut Tally, name: &str, rates: &[u8], answer: &str) -> bool {
    let rates = death_rates(rates);
    let above: Vec<usize> = (0..rates.len()).filter(|i| rates[*i] > 10_000).collect();
    let (last, first) = (rates.len() - 1, above[0]);
    let holds = [
        last == 0,
        last > 0 && first == 0,
        first > 0 && first < last,
        last > 0 && first == last,
        above.len() > 1,
        rates.contains(&10_001),
        rates.contains(&65_535),
    ];
    count_held(tally, &ABOVE, &holds, |how| with(name, how));
    answer.split(' ').nth(1) == Some(&first.to_string())
}

/// The cases of an operation that is refused. Gives whether the place is right, where it is
/// looked at here.
fn count_refused(
    tally: &mut Tally,
    c: &Fields,
    operation: &Operation,
    number: u64,
    answer: &str,
) -> bool {
    let name = name_of(operation);
    count(tally, refusal(name, number));
    let behind = order_of(name).iter().skip_while(|n| **n != number).skip(1);
    for next in behind.filter(|next| fails(**next, operation)) {
        count(tally, beside(name, number, *next));
    }
    let returns = returns(list_of(operation));
    let rates = rates_of(operation).unwrap_or(&[]);
    match (number, operation) {
        (2, _) if c.top == 4_001 => count(tally, "top 4,001 refused with 2".to_string()),
        (5, _) if c.fee == 10_001 => count(tally, with(name, "the record's fee 10,001")),
        (8, _) if returns.iter().any(|r| r.0 == 30_001) => {
            count(tally, "factor 30,001 refused with 8".to_string())
        }
        (11, _) => count_short(tally, c, operation),
        (15, _) => count_added(tally, c),
        (16, Operation::ValueMap(_, map)) => count_short_map(tally, c, map),
        (17, _) => count_lengths(tally, c, name, rates),
        (18, _) => return count_above(tally, name, rates, answer),
        (19, _) => return count_searched(tally, c, operation, answer),
        _ => {}
    }
    match operation {
        Operation::Sizes { .. } => answer == format!("{number} 0 0 0 0"),
        Operation::ValueNoTable { work, .. } => answer.ends_with(&format!(" 0 0 {}", digest(work))),
        _ => true,
    }
}

/// Record, list, rates, behaviour and working slice of each `value` line so far, and what it was
/// answered of them: number, place, value, margin and the digest of the working slice.
type Valued = BTreeMap<String, String>;

const BESIDE_VALUE: [&str; 5] = [
    "value_no_table accepted as value under behaviour 0",
    "value_no_table accepted as value under behaviour 1",
    "value_no_table accepted as value under behaviour 2",
    "value_no_table refused as value",
    "value_no_table accepted where the table of value is short",
];

/// Whether a line without a table is answered as the one with a table and the same words, where
/// there was one; a table that is short plays no part in it.
fn beside_value(tally: &mut Tally, valued: &mut Valued, line: &str, answer: &str) -> bool {
    let words: Vec<&str> = line.split(' ').collect();
    let told: Vec<&str> = answer.split(' ').take(5).collect();
    let (asked, told) = (words[1..].join(" "), told.join(" "));
    match words[..] {
        ["value", .., table] => {
            let asked = asked.strip_suffix(table).unwrap_or("").trim_end();
            valued.insert(asked.to_string(), told);
        }
        ["value_no_table", .., behaviour, _] => {
            let Some(other) = valued.get(&asked) else {
                return true;
            };
            let case = match (number_of(&told), number_of(other)) {
                (0, 11) => 4,
                (0, _) => behaviour.parse().unwrap_or(0),
                _ => 3,
            };
            count(tally, BESIDE_VALUE[case].to_string());
            return case == 4 || told == *other;
        }
        _ => {}
    }
    true
}

/// Cases that there have to be somewhere.
const SOMEWHERE: [&str; 43] = [
    "top 4,000 passes",
    "top 4,001 refused with 2",
    "factor 30,001 refused with 8",
    "a working slice one entry short",
    "a table one entry short",
    "top 1 valued",
    "fee 10,000 valued",
    "penalty rate 10,000 valued",
    "discount 1 valued",
    "step 10,000 valued",
    "penalty rate 0 and a step valued",
    "step 10,001 refused with 15",
    "spare bytes 1, 0 refused with 15",
    "spare bytes 0, 1 refused with 15",
    "step and spare bytes refused with 15",
    "equal factors valued",
    "factor 0 valued",
    "factor 30,000 valued",
    "weight 1 valued",
    "weight 10,000 valued",
    "64 returns valued",
    "slices just long enough valued",
    "a longer working slice valued",
    "a longer table valued",
    "no map",
    "a map one word short",
    "a map short by a word of one entry",
    "a map just long enough mapped",
    "a longer map mapped",
    "N 1 without a word mapped",
    "N 1 with words mapped",
    "a table that ends inside a word mapped",
    "a table that ends with a word mapped",
    "a table that ends one entry into a word mapped",
    "rows shorter than a word mapped",
    "rows as long as a word mapped",
    "rows longer than a word mapped",
    "rows longer than two words mapped",
    "unused bits that were set mapped",
    "several words of 40 ones or more mapped",
    "W equal to m drawn mapped",
    "the last table used again",
    "the last table used again with an entry changed",
];

/// Every case that there has to be, and how often.
fn wanted() -> Vec<(String, u64)> {
    let mut wanted = vec![("operations".to_string(), LEAST_OPERATIONS)];
    for (name, order) in ORDERS {
        wanted.push((format!("{name} accepted"), LEAST_ACCEPTED));
        wanted.push((format!("{name} accepted with a step"), LEAST_ACCEPTED));
        wanted.extend(order.iter().map(|n| (refusal(name, *n), LEAST_REFUSALS)));
        wanted.extend(order.windows(2).map(|w| (beside(name, w[0], w[1]), 1)));
    }
    let made = ["valued", "mapped", "searched", NO_TABLE];
    for (dates, what) in (1..=40).flat_map(|n| made.map(|w| (n, w))) {
        wanted.extend((0..3).map(|behaviour| (dates_case(what, dates, behaviour), 1)));
    }
    wanted.extend((0..3).map(|behaviour| (surrendered("nowhere", behaviour), 1)));
    for behaviour in [1, 2] {
        wanted.extend(SURRENDERED.map(|how| (surrendered(how, behaviour), LEAST_MARKED)));
    }
    for behaviour in 0..3 {
        wanted.extend(ENDS.map(|end| (rate_at_end(behaviour, end), LEAST_FALLEN)));
    }
    for name in ["value_table", "book", "walk"] {
        wanted.extend(["to zero", "not to zero"].map(|to| (fallen(name, to), LEAST_FALLEN)));
    }
    for name in ["value", "value_table", "walk", "fee", "value_no_table"] {
        wanted.push((format!("top 4,000: {}", refusal(name, 11)), 1));
    }
    for name in [
        "value",
        "value_map",
        "value_table",
        "walk",
        "fee",
        "value_no_table",
    ] {
        wanted.extend(WIDE.map(|which| (wide(name, which), LEAST_WIDE)));
    }
    wanted.extend(wanted_lifted());
    wanted.extend(wanted_deaths());
    wanted.extend(wanted_fees());
    wanted.extend(wanted_grouped());
    wanted.extend(wanted_by_hosts());
    wanted.extend(SOMEWHERE.map(|case| (case.to_string(), 1)));
    wanted
}

/// The cases of returns that lift an account above top.
fn wanted_lifted() -> Vec<(String, u64)> {
    let mut cases = vec![AT_TOP.to_string()];
    for name in ["value", "value_map", "value_table"] {
        cases.extend(LIFTED.map(|how| with(name, how)));
    }
    for name in ["value", "value_map"] {
        for behaviour in (0..3).map(Some) {
            cases.extend(BESIDE_DROPPED.map(|how| beside_dropped(name, how, behaviour)));
        }
        cases.extend([1, 2].map(|b| beside_dropped(name, OTHERWISE, Some(b))));
    }
    cases.extend(BESIDE_DROPPED.map(|how| beside_dropped("value_table", how, None)));
    cases.extend(PASSED.map(passed));
    let mut wanted: Vec<(String, u64)> = cases.into_iter().map(|c| (c, LEAST_LIFTED)).collect();
    let highest = ["value", "value_map", "value_table", "walk"].map(past_highest);
    wanted.extend(highest.map(|case| (case, 1)));
    wanted
}

/// The cases of death rates.
fn wanted_deaths() -> Vec<(String, u64)> {
    let mut wanted = Vec::new();
    for name in ["value", "value_map", "value_table"] {
        let cases = DEATHS.map(|how| with(name, how)).into_iter();
        let cases = cases.chain(MISTAKEN.map(|(_, how)| mistaken(name, how)));
        wanted.extend(cases.map(|case| (case, LEAST_DEATHS)));
    }
    for name in ["value", "value_map", "value_table", "fee", "value_no_table"] {
        let periods = |rate: &str| PERIODS.map(|period| rate_in(name, rate, period));
        let cases = RATES.into_iter().flat_map(periods);
        wanted.extend(cases.map(|case| (case, LEAST_DEATHS)));
        let refused = LENGTHS.iter().chain(&ABOVE).map(|how| with(name, how));
        wanted.extend(refused.map(|case| (case, 2)));
        for number in [17, 18] {
            // 19 is not looked at where there are no rates to value by.
            let behind = order_of(name).iter().skip_while(|n| **n != number).skip(1);
            let behind = behind.filter(|next| **next != 19);
            wanted.extend(behind.map(|next| (beside(name, number, *next), 1)));
        }
    }
    wanted
}

/// The cases of a search for a fee.
fn wanted_fees() -> Vec<(String, u64)> {
    let mut cases: Vec<String> = MISLED.map(|(_, how)| misled(how)).into();
    cases.extend(LEFT_OUT.map(|(_, how)| misled(how)));
    cases.extend(LEFT_VALUED.map(misled));
    cases.extend(LIFTED.map(|how| with("fee", how)));
    for behaviour in 0..3 {
        cases.extend(WANTED.map(|how| wanted_case(how, behaviour)));
    }
    let mut wanted: Vec<(String, u64)> = cases.into_iter().map(|c| (c, LEAST_SEARCHED)).collect();
    let somewhere = SEARCHED.iter().chain(&SHORT_WORK);
    wanted.extend(somewhere.map(|how| (with("fee", how), 1)));
    wanted.push((with("fee", "the record's fee 10,001"), 1));
    wanted
}

/// The cases of sums by account reached.
fn wanted_grouped() -> Vec<(String, u64)> {
    let mut wanted = Vec::new();
    for name in ["value", "value_map", "value_table", "fee"] {
        let kinds = GROUPED.map(|how| (with(name, how), LEAST_GROUPED));
        wanted.extend(kinds);
        let deaths = |how| DEATHS_OR_NONE.map(|deaths| (again(name, how, deaths), LEAST_AGAIN));
        wanted.extend(AGAIN.into_iter().flat_map(deaths));
        let wrong = MISGROUPED.map(|(_, how)| (misgrouped(name, how), LEAST_AGAIN));
        wanted.extend(wrong);
        wanted.push((every_order(name, EVERY_ORDER[0]), LEAST_GROUPED));
    }
    wanted.extend(["value", "value_table"].map(|name| (every_order(name, EVERY_ORDER[1]), 1)));
    for (name, behaviour) in ["value", "value_map", "fee"]
        .into_iter()
        .flat_map(|name| [0, 1, 2].map(|b| (name, format!("behaviour {b}"))))
    {
        let cases = AGAIN.map(|how| (again(name, how, &behaviour), LEAST_GROUPED));
        wanted.extend(cases);
    }
    wanted
}

/// The cases of sizes and of valuations without a table.
fn wanted_by_hosts() -> Vec<(String, u64)> {
    let name = "value_no_table";
    let mut cases: Vec<String> = LIFTED.map(|how| with(name, how)).into();
    cases.extend(DEATHS.map(|how| with(name, how)));
    cases.extend(MISTAKEN.map(|(_, how)| mistaken(name, how)));
    cases.extend(DEATHS_OR_NONE.map(|deaths| again(name, AGAIN[0], deaths)));
    cases.extend(BESIDE_VALUE.map(str::to_string));
    for behaviour in 0..3 {
        let ends = ENDS.map(|end| rate_at_end(behaviour, end));
        cases.extend(ends.map(|end| format!("{NO_TABLE}: {end}")));
        cases.push(again(name, AGAIN[0], &format!("behaviour {behaviour}")));
    }
    let mut wanted: Vec<(String, u64)> = cases.into_iter().map(|c| (c, LEAST_BY_HOSTS)).collect();
    let somewhere = SHORT_WORK.iter().chain(&NO_TABLE_SOMEWHERE);
    wanted.extend(somewhere.map(|how| (with(name, how), 1)));
    wanted.extend(SIZED.map(|how| (with("sizes", how), 1)));
    wanted
}

/// How a line names its table, where it is the last one.
fn count_table(tally: &mut Tally, line: &str) {
    if line.split(' ').any(|word| word == "=") {
        count(tally, "the last table used again".to_string());
    } else if line.contains(" =") {
        let case = "the last table used again with an entry changed";
        count(tally, case.to_string());
    }
}

/// Takes a line in; gives what is wrong with it.
fn take_line(
    tally: &mut Tally,
    (asked, valued): (&mut Asked, &mut Valued),
    session: &mut Session,
    line: &str,
) -> Option<String> {
    let read = session.operation(line);
    let answer = session.answer(line, false);
    let (Ok(operation), Ok(answer)) = (read, answer) else {
        return Some("not understood".to_string());
    };
    let order = order_of(name_of(&operation));
    let first = order.iter().find(|n| fails(**n, &operation));
    let number = number_of(&answer);
    if number != *first.unwrap_or(&0) {
        return Some(format!("{number} is not the first check that fails"));
    }
    count(tally, "operations".to_string());
    count_table(tally, line);
    let c = Fields::of(record_of(&operation));
    count_wide(tally, &c, &operation, number);
    let sound = match number {
        0 => count_accepted(tally, &c, &operation, session.table(), &answer),
        _ => count_refused(tally, &c, &operation, number, &answer),
    };
    if !sound {
        return Some("value, amounts or place are not those of the rules".to_string());
    }
    if !beside_value(tally, valued, line, &answer) {
        return Some("answered otherwise than with a table".to_string());
    }
    let valuation = (&c, &operation);
    let alike = number > 0 || count_grouped(tally, asked, valuation, session.table(), &answer);
    (!alike).then(|| "the same returns in another list were answered otherwise".to_string())
}

/// What was found, in words, and what lacks.
pub fn cover(script: &str) -> (String, Vec<String>) {
    let mut session = Session::default();
    let mut tally = Tally::new();
    let (mut asked, mut valued) = (Asked::new(), Valued::new());
    let mut lacking = Vec::new();
    for (index, line) in script.lines().enumerate() {
        if line.is_empty() || line.starts_with('#') {
            continue;
        }
        let before = (&mut asked, &mut valued);
        let wrong = take_line(&mut tally, before, &mut session, line);
        lacking.extend(wrong.map(|what| format!("line {}: {what}", index + 1)));
    }
    let found = |case: &str| tally.get(case).copied().unwrap_or(0);
    for (case, least) in wanted() {
        if found(&case) < least {
            lacking.push(format!("{case}: {}, at least {least}", found(&case)));
        }
    }
    (format!("{} operations", found("operations")), lacking)
}
