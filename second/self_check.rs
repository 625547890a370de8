//! `second self-check`: the figures of document 01's section "Contracts worked by
//! hand", penalty rates that fall by document 02's request (i), maps of surrender by its request
//! (ii), payments of what a return lifts above top by its request (iv), payment at death by
//! its request (v), the fee that gives a price by its request (vi), sums by account reached by
//! its request (vii), the sizes of slices, valuing without a table, every refusal on both sides of
//! its boundary, the order of the checks, what is left in the lent slices, whose entries are 64-bit
//! by request (iii), and properties on random small contracts.
//!
//! The operations are only called from outside here, as an engine's caller would.

use crate::script::{answer, digest, fill, Session, MOD_16, MOD_64, MOD_8};
use crate::terms::{list, rate_list, Terms, P, P_RETURNS, Q};
use crate::{gmwb, text};
use std::collections::BTreeMap;
use std::fmt::Debug;

/// Counts the checks made and failed.
struct Tally {
    checks: u64,
    failed: u64,
}

impl Tally {
    fn same<T: PartialEq + Debug>(&mut self, name: &str, got: T, expected: T) {
        self.checks += 1;
        if got != expected {
            self.failed += 1;
            eprintln!("failed: {name}: got {got:?}, expected {expected:?}");
        }
    }
}

/// Makes all checks; gives how many were made and how many failed.
pub fn run() -> (u64, u64) {
    let mut t = Tally {
        checks: 0,
        failed: 0,
    };
    marked_values(&mut t);
    marked_states(&mut t);
    marked_bookings(&mut t);
    stepped_values(&mut t);
    stepped_bookings(&mut t);
    stepped_walks(&mut t);
    map_figures(&mut t);
    map_lengths(&mut t);
    payouts(&mut t);
    deaths(&mut t);
    fees(&mut t);
    sizes_figures(&mut t);
    no_table_figures(&mut t);
    printed(&mut t);
    printed_within_slices(&mut t);
    record_boundaries(&mut t);
    list_boundaries(&mut t);
    rate_boundaries(&mut t);
    slice_boundaries(&mut t);
    booking_boundaries(&mut t);
    number_boundaries(&mut t);
    amount_boundaries(&mut t);
    order_of_record_checks(&mut t);
    order_of_later_checks(&mut t);
    left_in_slices(&mut t);
    rounded_once(&mut t);
    large_values(&mut t);
    script_lines(&mut t);
    table_behind_search(&mut t);
    let mut draw = Draw(20_240_601);
    let mut apart = [0; MISTAKEN.len()];
    for k in 0..48 {
        random_contract(&mut t, &mut draw, k, &mut apart);
    }
    for ((_, how), apart) in MISTAKEN.iter().zip(apart) {
        t.same(&format!("apart from {how}"), apart >= 10, true);
    }
    for k in 0..12 {
        every_strategy(&mut t, &mut draw, k);
    }
    let mut with_excess = 0;
    for k in 0..200 {
        with_excess += u64::from(random_walk(&mut t, &mut draw, k));
    }

    t.same("random walks with an excess", with_excess >= 30, true);
    text_fields(&mut t);
    text_rates(&mut t);
    text_as_written(&mut t);
    for _ in 0..50 {
        random_text(&mut t, &mut draw);
    }
    for _ in 0..2_000 {
        random_bytes(&mut t, &mut draw);
    }
    for k in 0..12 {
        every_fee(&mut t, &mut draw, k);
    }
    for k in 0..60 {
        random_fee(&mut t, &mut draw, k);
    }
    sums_by_account(&mut t, &mut draw);
    (t.checks, t.failed)
}

// ------------------------------------------------------- Contracts and calls

impl Terms {
    fn entry(&self, w: u64, a: u64) -> usize {
        w as usize * (usize::from(self.premium) + 1) + a as usize
    }

    fn m(&self, a: u64) -> u64 {
        a.min(u64::from(self.level))
    }

    fn states(&self) -> Vec<(u64, u64)> {
        let each = |w| (0..=u64::from(self.premium)).map(move |a| (w, a));
        (0..=u64::from(self.top)).flat_map(each).collect()
    }

    /// The penalty rate of a date, in signed numbers.
    fn rate(&self, date: u64) -> i64 {
        (i64::from(self.penalty) - (date as i64 - 1) * i64::from(self.step)).max(0)
    }

    /// The contract from a date on, which becomes its date 1.
    fn from_date(&self, date: u64) -> Terms {
        Terms {
            dates: self.dates + 1 - date as u16,
            penalty: self.rate(date) as u16,
            ..*self
        }
    }

    /// Cash, penalty, balance and guarantee of a booking, in signed numbers.
    fn figures(&self, date: u64, w: u64, a: u64, amount: u64) -> [u64; 4] {
        let (m, w, a, amount) = (self.m(a) as i64, w as i64, a as i64, amount as i64);
        let penalty = self.rate(date) * (amount - m).max(0);
        let mut guarantee = a - amount;
        if amount > m {
            guarantee = guarantee.min(a * (w - amount) / w).max(0);
        }
        let cash = 10_000 * amount - penalty;
        [cash, penalty, (w - amount).max(0), guarantee].map(|x| x as u64)
    }

    /// Where a return leads from a balance: the account held, and the excess over top.
    fn reached(&self, balance: u64, factor: u16) -> (u64, u64) {
        let product = balance * u64::from(factor) * (10_000 - u64::from(self.fee));
        let (lifted, top) = (product / 100_000_000, u64::from(self.top));
        if lifted > top {
            (top, lifted - top)
        } else {
            (lifted, 0)
        }
    }

    /// Whether a return lifts any balance above top; the highest it lifts most.
    fn lifts(&self, returns: &[(u16, u16)]) -> bool {
        let top = u64::from(self.top);
        returns.iter().any(|(f, _)| self.reached(top, *f).1 > 0)
    }

    /// `times` × 10,000 × top.
    fn tops(&self, times: u64) -> u64 {
        times * 10_000 * u64::from(self.top)
    }
}

fn filled_8(length: usize) -> Vec<u8> {
    (0..length)
        .map(|i| fill(3, i as u64, MOD_8) as u8)
        .collect()
}

fn filled_16(length: usize) -> Vec<u16> {
    (0..length)
        .map(|i| fill(5, i as u64, MOD_16) as u16)
        .collect()
}

/// A working slice or cash, every entry above 2^32.
fn filled_64(length: usize) -> Vec<u64> {
    (0..length as u64)
        .map(|i| fill((1 << 40) + 9, i, MOD_64))
        .collect()
}

/// Nearly all bits set.
fn filled_map(length: usize) -> Vec<u64> {
    (0..length as u64)
        .map(|i| fill(MOD_64 - 10_000_000, i, MOD_64))
        .collect()
}

/// A valuation with zero death rates and slices of exactly the needed length.
fn valued(terms: &Terms, returns: &[(u16, u16)], behaviour: u64) -> Run {
    valued_with(terms, returns, &terms.zero_rates(), behaviour)
}

/// The same with death rates.
fn valued_with(terms: &Terms, returns: &[(u16, u16)], rates: &[u16], behaviour: u64) -> Run {
    let mut work = filled_64(2 * terms.layer());
    let mut table = filled_16((usize::from(terms.dates) - 1) * terms.layer());
    let (record, list, rates) = (terms.record(), list(returns), rate_list(rates));
    let answer = gmwb::value(&record, &list, &rates, behaviour, &mut work, &mut table);
    (answer, work, table)
}

/// A supplied table valued with zero death rates: number and value.
fn supplied(terms: &Terms, returns: &[(u16, u16)], table: &[u16]) -> (u64, u64) {
    let mut work = filled_64(2 * terms.layer());
    let (list, rates) = (list(returns), rate_list(&terms.zero_rates()));
    let v = gmwb::value_table(&terms.record(), &list, &rates, &mut work, table);
    (v.number, v.value)
}

fn value_of(terms: &Terms, behaviour: u64) -> (u64, u64, i64) {
    let answer = valued(terms, &P_RETURNS, behaviour).0;
    (answer.number, answer.value, answer.margin)
}

/// A booking: number and place, then cash, penalty, balance, guarantee.
fn booked(terms: &Terms, date: u64, w: u64, a: u64, amount: u64) -> (u64, u64, [u64; 4]) {
    let mut b = filled_8(16);
    let answer = gmwb::book(&terms.record(), date, w, a, amount, &mut b);
    let cash = u64::from(u32::from_le_bytes([b[0], b[1], b[2], b[3]]));
    let penalty = u64::from(u32::from_le_bytes([b[4], b[5], b[6], b[7]]));
    let balance = u64::from(u16::from_le_bytes([b[8], b[9]]));
    let guarantee = u64::from(u16::from_le_bytes([b[10], b[11]]));
    let figures = [cash, penalty, balance, guarantee];
    (answer.number, answer.place, figures)
}

// -------------------------------------------------- Contracts worked by hand

fn marked_values(t: &mut Tally) {
    t.same("case 1 static", value_of(&P, 0), (0, 125_000, 25_000));
    t.same("case 1 mixed", value_of(&P, 1), (0, 125_000, 25_000));
    t.same("case 1 dynamic", value_of(&P, 2), (0, 130_000, 30_000));
    let short = Terms { dates: 1, ..P };
    for behaviour in 0..3 {
        t.same("case 4", value_of(&short, behaviour), (0, 125_000, 25_000));
    }
    let discounted = Terms {
        discount: 950_000,
        ..P
    };
    t.same("case 5", value_of(&discounted, 0), (0, 115_187, 15_187));
    t.same("case 6 static", value_of(&Q, 0), (0, 107_500, 7_500));
    t.same("case 6 mixed", value_of(&Q, 1), (0, 110_000, 10_000));
    t.same("case 6 dynamic", value_of(&Q, 2), (0, 110_000, 10_000));
    let lower = Terms { discount: 1, ..P };
    t.same("margin below 0", value_of(&lower, 0), (0, 0, -100_000));
}

fn marked_states(t: &mut Tally) {
    let (_, work, table) = valued(&P, &P_RETURNS, 2);
    let place = P.entry(15, 10);
    t.same("case 2", (work[place], table[place]), (160_000, 0));
    let place = P.entry(5, 10);
    t.same("case 3 dynamic", (work[place], table[place]), (100_000, 0));
    let (_, work, table) = valued(&P, &P_RETURNS, 1);
    t.same("case 3 mixed", (work[place], table[place]), (100_000, 5));
    let place = Q.entry(12, 10);
    let (_, _, table) = valued(&Q, &P_RETURNS, 1);
    t.same("case 7 mixed", table[place], 12);
    let (_, _, table) = valued(&Q, &P_RETURNS, 2);
    t.same("case 7 dynamic", table[place], 0);
}

fn marked_bookings(t: &mut Tally) {
    let got = booked(&P, 1, 15, 10, 6);
    t.same("case 8", got, (0, 0, [59_000, 1_000, 9, 4]));
    let got = booked(&P, 1, 15, 10, 15);
    t.same("case 9", got, (0, 0, [140_000, 10_000, 0, 0]));
    let (number, place, _) = booked(&P, 1, 5, 10, 6);
    t.same("case 10", (number, place), (14, 0));
    // Not marked: the amount m on an account below it, and nothing on an empty account.
    let got = booked(&P, 1, 3, 10, 5);
    t.same("m above the account", got, (0, 0, [50_000, 0, 0, 5]));
    let got = booked(&P, 1, 0, 10, 0);
    t.same("nothing drawn", got, (0, 0, [0, 0, 0, 10]));
    // Above m: a guarantee below the amount, then one above the account, where the
    // proportional reset is the smaller (10 × 4 / 7 is 5.7).
    let got = booked(&P, 1, 15, 4, 6);
    t.same("guarantee at 0", got, (0, 0, [58_000, 2_000, 9, 0]));
    let low = Terms { level: 1, ..P };
    let got = booked(&low, 1, 7, 10, 3);
    t.same("proportional", got, (0, 0, [28_000, 2_000, 4, 5]));
}

/// P with four dates.
const P4: Terms = Terms { dates: 4, ..P };

/// "Bookings, tables and values follow it. A step of zero gives the old figures."
/// Static pays no penalty, so that no step changes it; nor does dynamic without a fee, which
/// draws nothing above m.
fn stepped_values(t: &mut Tally) {
    for (fee, step, values) in [
        (0, 0, [123_750, 123_750, 139_375]),
        (0, 100, [123_750, 123_875, 139_375]),
        (0, 1_000, [123_750, 125_000, 139_375]),
        (1_000, 0, [107_500, 111_250, 114_750]),
        (1_000, 100, [107_500, 111_375, 115_025]),
        (1_000, 1_000, [107_500, 112_500, 117_500]),
    ] {
        let terms = Terms { fee, step, ..P4 };
        for (behaviour, value) in values.into_iter().enumerate() {
            let name = format!("P, N 4, fee {fee}, step {step}, behaviour {behaviour}");
            let margin = value as i64 - 100_000;
            let got = value_of(&terms, behaviour as u64);
            t.same(&name, got, (0, value, margin));
        }
    }
    // Date 1 has the record's own rate, and the only decision of P falls on it.
    for step in [1, 10_000] {
        let got = [0, 1, 2].map(|b| value_of(&Terms { step, ..P }, b).1);
        t.same("one decision date", got, [125_000, 125_000, 130_000]);
    }
}

/// 15 drawn at (15, 10) pays the penalty on 10. The rate reaches zero on a date or between
/// two, and stays there. With 16 bits 8 × 8,192 would be 0 again.
fn stepped_bookings(t: &mut Tally) {
    for (step, cash) in [
        (0, [59_000, 59_000, 59_000]),
        (100, [59_000, 59_100, 59_200]),
        (1_000, [59_000, 60_000, 60_000]),
    ] {
        for (date, cash) in (1..).zip(cash) {
            let got = booked(&Terms { step, ..P4 }, date, 15, 10, 6);
            let name = format!("6 at (15, 10), step {step}, date {date}");
            t.same(&name, got, (0, 0, [cash, 60_000 - cash, 9, 4]));
        }
    }
    for (penalty, step, date, rate) in [
        (1_000, 500, 2, 500),
        (1_000, 500, 3, 0),
        (1_000, 500, 39, 0),
        (1_000, 333, 4, 1),
        (1_000, 333, 5, 0),
        (1_000, 1_001, 2, 0),
        (0, 1, 2, 0),
        (10_000, 10_000, 1, 10_000),
        (10_000, 10_000, 2, 0),
        (10_000, 10_000, 39, 0),
        (10_000, 1, 39, 9_962),
        (10_000, 263, 39, 6),
        (10_000, 264, 39, 0),
        (10_000, 8_192, 9, 0),
    ] {
        let terms = Terms {
            dates: 40,
            penalty,
            step,
            ..P
        };
        let got = booked(&terms, date, 15, 10, 15);
        let name = format!("rate {penalty}, step {step}, date {date}");
        t.same(&name, got, (0, 0, [150_000 - 10 * rate, 10 * rate, 0, 0]));
    }
}

/// A return that changes nothing.
const STILL: [(u16, u16); 1] = [(10_000, 10_000)];

/// A return that changes nothing: 7 are drawn from (20, 20), 7 from (13, 13) and 6 from
/// (6, 6). The penalty falls on 2, 2 and 1; the value is the sum of the cash.
fn stepped_walks(t: &mut Tally) {
    let still = list(&STILL);
    for (step, expected) in [
        (0, [68_000, 68_000, 59_000, 0]),
        (300, [68_000, 68_600, 59_600, 0]),
        (500, [68_000, 69_000, 60_000, 0]),
        (10_000, [68_000, 70_000, 60_000, 0]),
    ] {
        let terms = Terms {
            premium: 20,
            step,
            ..P4
        };
        let (record, layer) = (terms.record(), terms.layer());
        let mut table = vec![0; 3 * layer];
        table[terms.entry(20, 20)] = 7;
        table[layer + terms.entry(13, 13)] = 7;
        table[2 * layer + terms.entry(6, 6)] = 6;
        let mut cash = vec![0; 4];
        let walked = gmwb::walk(&record, &still, &table, &[0; 4], &mut cash);
        let name = format!("walk with step {step}");
        t.same(&name, (walked.number, &cash[..]), (0, &expected[..]));
        let name = format!("table with step {step}");
        let got = supplied(&terms, &STILL, &table);
        t.same(&name, got, (0, expected.iter().sum()));
    }
}

/// A valuation with a map of some words and zero death rates: the answer, and what is left in
/// the slices.
fn mapped(
    terms: &Terms,
    returns: &[(u16, u16)],
    behaviour: u64,
    words: usize,
) -> (gmwb::Mapped, Run, Vec<u64>) {
    mapped_with(terms, returns, &terms.zero_rates(), behaviour, words)
}

/// The same with death rates.
fn mapped_with(
    terms: &Terms,
    returns: &[(u16, u16)],
    rates: &[u16],
    behaviour: u64,
    words: usize,
) -> (gmwb::Mapped, Run, Vec<u64>) {
    let mut work = filled_64(2 * terms.layer());
    let mut table = filled_16((usize::from(terms.dates) - 1) * terms.layer());
    let mut map = filled_map(words);
    let (record, list, rates) = (terms.record(), list(returns), rate_list(rates));
    let (w, t, m) = (&mut work, &mut table, &mut map);
    let answer = gmwb::value_map(&record, &list, &rates, behaviour, w, t, m);
    (answer, (answer.valued, work, table), map)
}

/// Static draws m also where W equals it, and has no bit. Dynamic gives up (1, 0), and with
/// three dates on both.
fn map_figures(t: &mut Tally) {
    let mixed = [0x0a00_a00a_0080_0800, 0x6002_00a0, 0, 0];
    for (behaviour, count, words) in [(0, 0, [0; 4]), (1, 13, mixed), (2, 1, [0x800, 0, 0, 0])] {
        let (answer, _, map) = mapped(&P, &P_RETURNS, behaviour, 4);
        let name = format!("map of P, behaviour {behaviour}");
        t.same(&name, (answer.count, map), (count, words.to_vec()));
    }
    let three = Terms { dates: 3, ..P };
    let counts = [0, 1, 2].map(|b| mapped(&three, &P_RETURNS, b, 8).0.count);
    t.same("maps of P, N 3", counts, [0, 36, 2]);
    let (_, (_, _, table), map) = mapped(&P, &P_RETURNS, 1, 4);
    let at_m = P.entry(5, 10);
    t.same("W equal to m is drawn", table[at_m], 5);
    t.same("W equal to m", map[at_m / 64] >> (at_m % 64) & 1, 0);
    let single = Terms { dates: 1, ..P };
    let (answer, _, map) = mapped(&single, &P_RETURNS, 2, 3);
    t.same("map of N 1", (answer.count, map), (0, filled_map(3)));
}

/// Top, U, N and the words of the table: it ends inside a word, at its end and one after.
fn map_lengths(t: &mut Tally) {
    for (top, premium, dates, words) in [
        (8, 6, 2, 1),
        (7, 7, 2, 1),
        (3, 3, 5, 1),
        (12, 4, 2, 2),
        (10, 6, 6, 7),
        (63, 63, 3, 128),
        (9, 9, 1, 0),
    ] {
        let terms = Terms {
            premium,
            level: 2,
            top,
            dates,
            discount: 1,
            ..P
        };
        for lent in [0, words / 2, words, words + 1, words + 9] {
            map_of_length(t, &terms, words, lent);
        }
        if words > 0 {
            map_of_length(t, &terms, words, words - 1);
        }
    }
}

/// At a discount of 1 every account above m is surrendered. No other bit is set, and what is
/// not needed is as before; after a refusal that is all.
fn map_of_length(t: &mut Tally, terms: &Terms, words: usize, lent: usize) {
    let name = format!("{terms:?}, map of {lent} words");
    let states = terms.states().into_iter();
    let open = states.filter(|(w, a)| *w > terms.m(*a)).count() as u64;
    let (number, ones, needed) = if lent < words {
        (16, 0, 0)
    } else {
        (0, u64::from(terms.dates - 1) * open, words)
    };
    let (answer, _, map) = mapped(terms, &P_RETURNS, 1, lent);
    let told = (answer.valued.number, answer.valued.place, answer.count);
    t.same(&name, told, (number, 0, ones));
    let set: u32 = map[..needed].iter().map(|word| word.count_ones()).sum();
    t.same(&format!("{name}: bits"), u64::from(set), ones);
    let before = &filled_map(lent)[needed..];
    t.same(&format!("{name}: untouched"), &map[needed..], before);
}

// ------------------------------------------------------ What is lifted above top

fn payouts(t: &mut Tally) {
    payout_values(t);
    payout_walks(t);
    excess_on_first_return(t);
    excess_at_decision_date(t);
    excess_at_maturity(t);
    excess_without_penalty(t);
    fee_down_to_top(t);
    excess_rounded_once(t);
    largest_payouts(t);
    most_a_value_can_be(t);
}

/// P with more dates or fewer.
fn payout_values(t: &mut Tally) {
    for (dates, values) in [
        (1, [125_000, 125_000, 125_000]),
        (2, [125_000, 125_000, 130_000]),
        (3, [125_000, 125_000, 131_250]),
        (4, [123_750, 123_750, 139_375]),
    ] {
        let terms = Terms { dates, ..P };
        let got = [0, 1, 2].map(|b| value_of(&terms, b).1);
        t.same(&format!("P with N {dates}"), got, values);
    }
}

/// A walk: its number, and the cash.
fn walked(
    terms: &Terms,
    returns: &[(u16, u16)],
    table: &[u16],
    numbers: &[u16],
) -> (u64, Vec<u64>) {
    let mut cash = filled_64(numbers.len());
    let (record, list) = (terms.record(), list(returns));
    let answer = gmwb::walk(&record, &list, table, numbers, &mut cash);
    (answer.number, cash)
}

/// Along the dynamic table: 15 come to 22, of which 2 are paid on arrival. With three dates 1 is
/// drawn at (15, 10): 14 come to 21, then 20 to 30.
fn payout_walks(t: &mut Tally) {
    let (_, _, table) = valued(&P, &P_RETURNS, 2);
    let got = walked(&P, &P_RETURNS, &table, &[1, 1]);
    t.same("P along returns 1, 1", got, (0, vec![0, 220_000]));
    let three = Terms { dates: 3, ..P };
    let (_, _, table) = valued(&three, &P_RETURNS, 2);
    for (numbers, cash) in [
        ([1, 1, 1], [10_000, 10_000, 300_000]),
        ([1, 0, 1], [10_000, 0, 100_000]),
        ([0, 1, 1], [0, 0, 100_000]),
    ] {
        let name = format!("P with N 3 along returns {numbers:?}");
        let got = walked(&three, &P_RETURNS, &table, &numbers);
        t.same(&name, got, (0, cash.to_vec()));
    }
}

/// Without decision dates: 10 are lifted to top, to one above it and further. The value and
/// the maturity payment of a walk hold the excess, the value of top does not.
fn excess_on_first_return(t: &mut Tally) {
    for (top, factor, value) in [
        (12, 11_999, 110_000),
        (12, 12_000, 120_000),
        (12, 12_999, 120_000),
        (12, 13_000, 130_000),
        (12, 30_000, 300_000),
        (10, 10_000, 100_000),
        (10, 11_000, 110_000),
        (10, 30_000, 300_000),
    ] {
        let terms = Terms { top, dates: 1, ..P };
        let single = [(factor, 10_000)];
        let name = format!("10 under top {top} at factor {factor}");
        for behaviour in 0..3 {
            let (answer, work, _) = valued(&terms, &single, behaviour);
            t.same(&name, (answer.number, answer.value), (0, value));
            t.same(&name, answer.margin, value as i64 - 100_000);
            let highest = work[terms.entry(u64::from(top), 10)];
            t.same(&format!("{name}: top"), highest, terms.tops(1));
        }
        let got = walked(&terms, &single, &[], &[0]);
        t.same(&name, got, (0, vec![value]));
    }
}

/// P under top 12 with three dates.
const UNDER_12: Terms = Terms {
    top: 12,
    dates: 3,
    ..P
};

/// A return that changes nothing and one that triples.
const STILL_OR_TRIPLE: [(u16, u16); 2] = [(10_000, 5_000), (30_000, 5_000)];

/// A walk on which nothing is drawn.
fn undrawn(t: &mut Tally, numbers: [u16; 3], cash: [u64; 3]) {
    let zeros = vec![0; 2 * UNDER_12.layer()];
    let got = walked(&UNDER_12, &STILL_OR_TRIPLE, &zeros, &numbers);
    t.same(&format!("tripled by {numbers:?}"), got, (0, cash.to_vec()));
}

/// 10 triple to 30 on the way to date 1 or date 2, or 12 to 36 after that.
fn excess_at_decision_date(t: &mut Tally) {
    undrawn(t, [1, 0, 0], [180_000, 0, 120_000]);
    undrawn(t, [0, 1, 0], [0, 180_000, 120_000]);
    undrawn(t, [1, 1, 0], [180_000, 240_000, 120_000]);
    // The cash of the eight paths, all as likely: 3,400,000 in all.
    let zeros = vec![0; 2 * UNDER_12.layer()];
    let got = supplied(&UNDER_12, &STILL_OR_TRIPLE, &zeros);
    t.same("nothing drawn", got, (0, 425_000));
}

/// The last return lifts 10 or 12 above top, beside the maturity payment of top.
fn excess_at_maturity(t: &mut Tally) {
    undrawn(t, [0, 0, 0], [0, 0, 100_000]);
    undrawn(t, [0, 0, 1], [0, 0, 300_000]);
    undrawn(t, [1, 0, 1], [180_000, 0, 360_000]);
    undrawn(t, [1, 1, 1], [180_000, 240_000, 360_000]);
}

/// At (12, 10) 6 are drawn, 1 of them above m: the penalty falls on that one, and not on the 18
/// that are paid on arrival. A booking knows no excess.
fn excess_without_penalty(t: &mut Tally) {
    let mut table = vec![0; 2 * UNDER_12.layer()];
    table[UNDER_12.entry(12, 10)] = 6;
    let got = walked(&UNDER_12, &STILL_OR_TRIPLE, &table, &[1, 0, 0]);
    t.same("drawn beside an excess", got, (0, vec![239_000, 0, 60_000]));
    let got = booked(&UNDER_12, 1, 12, 10, 6);
    t.same("booked at top", got, (0, 0, [59_000, 1_000, 6, 4]));
}

/// 10 come to 12.5 before the fee. What is left of it above top is whole units or nothing.
fn fee_down_to_top(t: &mut Tally) {
    for (fee, value) in [
        (0, 120_000),
        (400, 120_000),
        (401, 110_000),
        (1_200, 110_000),
        (1_201, 100_000),
        (2_000, 100_000),
        (10_000, 100_000),
    ] {
        let terms = Terms {
            top: 10,
            dates: 1,
            fee,
            ..P
        };
        let (answer, _, _) = valued(&terms, &[(12_500, 10_000)], 0);
        t.same(&format!("lifted less fee {fee}"), answer.value, value);
    }
}

/// 3 × 1.5 × 0.9 = 4.05 lies 1 above a top of 3. Rounding after the factor too would leave 3.
fn excess_rounded_once(t: &mut Tally) {
    let terms = Terms {
        premium: 3,
        level: 1,
        top: 3,
        dates: 1,
        fee: 1_000,
        ..P
    };
    let (answer, _, _) = valued(&terms, &[(15_000, 10_000)], 0);
    t.same("excess rounded once", answer.value, 40_000);
}

/// An account of 4,000 that triples on each of 39 dates pays 8,000 each time, and 4,000 at
/// maturity: above 2^31, and discount × sum above 2^64. A premium of 1 gets there on date 8.
fn largest_payouts(t: &mut Tally) {
    let terms = Terms {
        premium: 1,
        level: 1,
        top: 4_000,
        dates: 40,
        ..P
    };
    let triple = [(30_000, 10_000)];
    for behaviour in 0..2 {
        let (answer, work, _) = valued(&terms, &triple, behaviour);
        let largest = work[terms.entry(4_000, 0)];
        t.same(
            "largest value",
            (answer.number, largest),
            (0, 3_160_000_000),
        );
        t.same("largest value above 2^31", largest > 1 << 31, true);
        let within = work.iter().all(|v| *v <= terms.tops(79));
        t.same("values of 40 dates", within, true);
    }
    let zeros = vec![0; 39 * terms.layer()];
    let got = walked(&terms, &triple, &zeros, &[0; 40]);
    let mut expected = vec![0; 7];
    expected.push(25_610_000);
    expected.resize(39, 80_000_000);
    expected.push(120_000_000);
    t.same("tripled on each of 40 dates", got, (0, expected));
}

/// A premium at top that triples each time has the largest value there is for its top and N:
/// 2 × N + 1 times the top.
fn most_a_value_can_be(t: &mut Tally) {
    for (top, dates) in [(1, 1), (7, 1), (7, 2), (40, 3), (40, 40)] {
        let terms = Terms {
            premium: top,
            level: 1,
            top,
            dates,
            ..P
        };
        let (answer, work, _) = valued(&terms, &[(30_000, 10_000)], 2);
        let dates = u64::from(dates);
        let name = format!("most under top {top} with N {dates}");
        t.same(&name, answer.value, terms.tops(2 * dates + 1));
        let most = work.iter().copied().max();
        t.same(&name, most, Some(terms.tops(2 * dates - 1)));
    }
}

// ------------------------------------------------------------ Payment at death

fn deaths(t: &mut Tally) {
    death_values(t);
    death_payments(t);
    death_rounded(t);
    living_holders_layer(t);
    certain_death(t);
}

fn values_with(terms: &Terms, returns: &[(u16, u16)], rates: &[u16]) -> [u64; 3] {
    [0, 1, 2].map(|b| valued_with(terms, returns, rates, b).0.value)
}

/// The last rate changes nothing: death then pays what maturity does.
fn death_values(t: &mut Tally) {
    for (rates, values) in [
        (&[0, 0][..], [125_000, 125_000, 130_000]),
        (&[100, 100], [125_000, 125_000, 129_950]),
        (&[2_500, 5_000], [125_000, 125_000, 128_750]),
        (&[10_000, 0], [125_000, 125_000, 125_000]),
        (&[10_000, 10_000], [125_000, 125_000, 125_000]),
        (&[0, 10_000], [125_000, 125_000, 130_000]),
        (&[100, 200, 300], [125_000, 125_000, 131_162]),
        (&[500; 4], [123_927, 123_927, 137_844]),
    ] {
        let dates = rates.len() as u16;
        let got = values_with(&Terms { dates, ..P }, &P_RETURNS, rates);
        t.same(&format!("P with rates {rates:?}"), got, values);
    }
    let discount = 950_000;
    let got = values_with(&Terms { discount, ..P }, &P_RETURNS, &[3_333; 2]);
    let expected = [116_374, 116_374, 118_749];
    t.same("P with a discount and rates", got, expected);
}

/// A single return leads from 10 below the guarantee, to it, above it, or 10 past a top of 20.
/// Without decision dates death pays what maturity does.
fn death_payments(t: &mut Tally) {
    for (factor, paid) in [
        (0, 10),
        (5_000, 10),
        (10_000, 10),
        (15_000, 15),
        (30_000, 30),
    ] {
        let single = [(factor, 10_000)];
        let one = Terms { dates: 1, ..P };
        for rate in [0, 1, 5_000, 9_999, 10_000] {
            let name = format!("P with N 1, factor {factor}, rate {rate}");
            let got = values_with(&one, &single, &[rate]);
            t.same(&name, got, [10_000 * paid; 3]);
        }
        let name = format!("P with factor {factor}, sure death");
        let got = values_with(&P, &single, &[10_000, 0]);
        t.same(&name, got, [10_000 * paid; 3]);
    }
}

/// Static values of date 1 are 100,000 and 150,010. A rate of 1 makes of the second 150,009.999,
/// rounded down to 150,009: a sum of 125,009.5009. Rounded after the weights it would be
/// 125,010.0005.
fn death_rounded(t: &mut Tally) {
    let uneven = [(5_000, 4_999), (15_000, 5_001)];
    let got = [0, 1, 10_000].map(|rate| values_with(&P, &uneven, &[rate, 0])[0]);
    t.same(
        "rounded before the weights",
        got,
        [125_010, 125_009, 125_005],
    );
}

/// The first layer has the values of a living holder, and the second zeros, whatever the first
/// rate is.
fn living_holders_layer(t: &mut Tally) {
    let three = Terms { dates: 3, ..P };
    for behaviour in 0..3 {
        let (_, plain, table) = valued_with(&three, &P_RETURNS, &[0, 700, 0], behaviour);
        for first in [1, 5_000, 10_000] {
            let rates = [first, 700, 0];
            let (_, work, amounts) = valued_with(&three, &P_RETURNS, &rates, behaviour);
            t.same("values of a living holder", &work, &plain);
            t.same("amounts of a living holder", &amounts, &table);
        }
        let (_, other, _) = valued_with(&three, &P_RETURNS, &[0, 0, 0], behaviour);
        let (_, last, _) = valued_with(&three, &P_RETURNS, &[0, 0, 10_000], behaviour);
        t.same("the last rate", &last, &other);
        t.same("a rate between", plain != other, true);
    }
    let (_, work, _) = valued_with(&P, &P_RETURNS, &[10_000, 0], 2);
    t.same("case 2 beside a death", work[P.entry(15, 10)], 160_000);
}

/// A rate of 10,000 in the first period: the discounted mean of the death payments, under each
/// behaviour, whatever follows.
fn certain_death(t: &mut Tally) {
    for (discount, returns, value) in [
        (1_000_000, P_RETURNS, 125_000),
        (950_000, P_RETURNS, 118_750),
        // 10 or 30, of these 10 past top
        (1_000_000, STILL_OR_TRIPLE, 200_000),
        (333_333, STILL_OR_TRIPLE, 66_666),
    ] {
        for dates in 1..=4 {
            let terms = Terms {
                discount,
                dates,
                ..P
            };
            let mut rates = vec![1_234; dates.into()];
            rates[0] = 10_000;
            let name = format!("sure death, N {dates}, discount {discount}");
            t.same(&name, values_with(&terms, &returns, &rates), [value; 3]);
        }
    }
}

// ------------------------------------------------ Which fee gives this price

/// A search, and what it leaves in the working slice.
type Searched = (gmwb::Found, Vec<u64>);

/// A search with a working slice of exactly the needed length.
fn searched(terms: &Terms, lists: Lists, behaviour: u64, wanted: u64) -> Searched {
    let mut work = filled_64(2 * terms.layer());
    let (record, list, rates) = (terms.record(), list(lists.0), rate_list(lists.1));
    let found = gmwb::fee(&record, &list, &rates, behaviour, wanted, &mut work);
    (found, work)
}

/// The answer of a valuation at a fee.
fn at_fee(terms: &Terms, lists: Lists, behaviour: u64, fee: u64) -> gmwb::Valued {
    let fee = fee as u16;
    valued_with(&Terms { fee, ..*terms }, lists.0, lists.1, behaviour).0
}

/// P's returns, and zero death rates.
const P_LISTS: Lists = (&P_RETURNS, &[0; 2]);

/// A search for P with a fee in its record and zero death rates: number, place, fee, value and
/// margin. "After the search, found or not, the needed working entries are zero".
fn priced(t: &mut Tally, own: u16, behaviour: u64, wanted: u64) -> (u64, u64, u64, u64, i64) {
    let (found, work) = searched(&Terms { fee: own, ..P }, P_LISTS, behaviour, wanted);
    t.same("P: cleared", work.iter().all(|x| *x == 0), true);
    let v = found.valued;
    (v.number, v.place, found.fee, v.value, v.margin)
}

fn fees(t: &mut Tally) {
    fee_figures(t);
    fee_beside_value(t);
    fee_slices(t);
    highest_fees(t);
}

/// Static, the guarantee alone is worth 100,000. "The record's own fee is range-checked and
/// otherwise unused."
fn fee_figures(t: &mut Tally) {
    for (behaviour, wanted, fee, value) in [
        (0, 100_000, 2_667, 100_000),
        (0, 110_000, 1_334, 110_000),
        (0, 124_999, 1, 120_000),
        (0, 125_000, 0, 125_000),
        // 0 with 32 bits, below 0 with a sign
        (0, 1 << 32, 0, 125_000),
        (0, 1 << 63, 0, 125_000),
        (0, u64::MAX, 0, 125_000),
        (2, 110_000, 1_667, 110_000),
        (2, 124_999, 477, 122_500),
        (2, 125_000, 1, 125_000),
        (2, 130_000, 0, 130_000),
        (2, u64::MAX, 0, 130_000),
    ] {
        let expected = (0, 0, fee, value, value as i64 - 100_000);
        for own in [0, 1, 1_334, 9_999, 10_000] {
            let name = format!("P with fee {own}, behaviour {behaviour}, wanted {wanted}");
            let got = priced(t, own, behaviour, wanted);
            t.same(&name, got, expected);
        }
    }
    for (behaviour, wanted) in (0..3).flat_map(|b| [0, 1, 99_999].map(|w| (b, w))) {
        let name = format!("P, behaviour {behaviour}, wanted {wanted}");
        let got = priced(t, 0, behaviour, wanted);
        t.same(&name, got, (19, 0, 0, 0, 0));
    }
}

/// A fee found gives the value found, the fee before it more than wanted.
fn fee_beside_value(t: &mut Tally) {
    for behaviour in 0..3 {
        for wanted in (100_000..=130_000).step_by(500) {
            let (number, _, fee, value, _) = priced(t, 0, behaviour, wanted);
            let name = format!("P, behaviour {behaviour}, wanted {wanted}");
            let at = |fee: u64| at_fee(&P, P_LISTS, behaviour, fee).value;
            t.same(&name, (number, at(fee)), (0, value));
            let before = fee.checked_sub(1).map_or(u64::MAX, at);
            let first = value <= wanted && wanted < before;
            t.same(&format!("{name}: smallest"), first, true);
        }
    }
}

/// "After the search, found or not, the needed working entries are zero", those beyond as before;
/// a slice that is short is left as it was. 19 is "found last".
fn fee_slices(t: &mut Tally) {
    let (record, returns, needed) = (P.record(), list(&P_RETURNS), 2 * P.layer());
    for lent in [0, needed / 2, needed - 1, needed, needed + 1, needed + 9] {
        for (wanted, number) in [(0, 19), (99_999, 19), (100_000, 0), (u64::MAX, 0)] {
            let mut work = filled_64(lent);
            let found = gmwb::fee(&record, &returns, &[0; 4], 1, wanted, &mut work);
            let mut expected = filled_64(lent);
            if lent >= needed {
                expected[..needed].fill(0);
            }
            let number = if lent < needed { 11 } else { number };
            let name = format!("wanted {wanted}, working slice of {lent}");
            t.same(&name, found.valued.number, number);
            t.same(&format!("{name}: left"), work, expected);
        }
    }
}

/// A return that triples leads from 10 to 2 up to fee 9,333. Where later payments count for little,
/// 2 are surrendered, and 1 is not. Static has a part only in what is above top, up to fee 6,333.
fn highest_fees(t: &mut Tally) {
    let terms = Terms {
        level: 1,
        top: 10,
        discount: 20_000,
        ..P
    };
    for (behaviour, fee) in [(0, 6_334), (1, 9_334), (2, 9_334)] {
        let lists = (&[(30_000, 10_000)][..], &[0; 2][..]);
        let least = at_fee(&terms, lists, behaviour, 10_000);
        let (found, _) = searched(&terms, lists, behaviour, least.value);
        let name = format!("highest fee, behaviour {behaviour}");
        t.same(&name, (found.valued, found.fee), (least, fee));
        let (found, _) = searched(&terms, lists, behaviour, least.value - 1);
        t.same(&name, (found.valued.number, found.fee), (19, 0));
    }
}

/// Every fee of a contract under a top of at most 4, each behaviour: none gives more than the one
/// before, and a search gives the first whose value is at most wanted.
fn every_fee(t: &mut Tally, draw: &mut Draw, k: u64) {
    let top = 2 + draw.upto(2);
    let terms = draw.under(top as u16, 1 + (k % 3) as u16);
    let (returns, rates) = (draw.returns(), draw.rates(terms.dates));
    let lists = (&returns[..], &rates[..]);
    for behaviour in 0..3 {
        let at = |fee: u64| at_fee(&terms, lists, behaviour, fee);
        let all: Vec<gmwb::Valued> = (0..=10_000).map(at).collect();
        let name = format!("every fee {k}: {terms:?} {returns:?} {rates:?}, {behaviour}");
        let falling = all.windows(2).all(|v| v[0].value >= v[1].value);
        t.same(&format!("{name}: falling"), falling, true);
        for fee in [0, 1, draw.upto(1_000), draw.upto(10_000), 10_000] {
            let value = all[fee as usize].value;
            for wanted in [value.saturating_sub(1), value, value + 1] {
                let expected = all.iter().position(|v| v.value <= wanted);
                let (found, work) = searched(&terms, lists, behaviour, wanted);
                let fee = (found.valued.number == 0).then_some(found.fee as usize);
                t.same(&format!("{name}: wanted {wanted}"), fee, expected);
                let told = expected.map_or(NO_FEE, |fee| all[fee]);
                t.same(&format!("{name}: figures"), found.valued, told);
                let cleared = work.iter().all(|x| *x == 0);
                t.same(&format!("{name}: cleared"), cleared, true);
            }
        }
    }
}

const NO_FEE: gmwb::Valued = gmwb::Valued {
    number: 19,
    place: 0,
    value: 0,
    margin: 0,
};

/// A contract at some fees, from the smallest, each behaviour: none gives more than the one before
/// it. What a fee gives is found at it or before it, and the fee before that one gives more.
fn random_fee(t: &mut Tally, draw: &mut Draw, k: u64) {
    let (terms, returns) = (draw.terms(), draw.returns());
    let rates = draw.rates(terms.dates);
    let lists = (&returns[..], &rates[..]);
    let mut fees = vec![0, 1, 2, 10_000];
    fees.extend((0..12).map(|i| draw.upto([300, 3_000, 10_000][i % 3])));
    fees.sort_unstable();
    for behaviour in 0..3 {
        let name = format!("random fee {k}: {terms:?} {returns:?} {rates:?}, {behaviour}");
        let at = |fee: u64| at_fee(&terms, lists, behaviour, fee);
        let values: Vec<u64> = fees.iter().map(|fee| at(*fee).value).collect();
        let falling = values.windows(2).all(|v| v[0] >= v[1]);
        t.same(&format!("{name}: falling"), falling, true);
        let some = draw.upto(fees.len() as u64 - 1) as usize;
        let (found, _) = searched(&terms, lists, behaviour, values[some]);
        t.same(&format!("{name}: found"), found.fee <= fees[some], true);
        t.same(&format!("{name}: value"), found.valued, at(found.fee));
        t.same(&format!("{name}: wanted"), found.valued.value, values[some]);
        let before = found.fee.checked_sub(1).map(|fee| at(fee).value);
        let more = before.is_none_or(|before| before > values[some]);
        t.same(&format!("{name}: smallest"), more, true);
    }
}

// ------------------------------------------------- Sizes, values without a table

/// Premium, top and dates, then entries of the working slice and of the table, words of the map.
/// 231 entries take 4 words, 64 take 1, 65 take 2; 4,001 squared is 16,008,001.
fn sizes_figures(t: &mut Tally) {
    for (premium, top, dates, work, table, map) in [
        (10, 20, 1, 462, 0, 0),
        (10, 20, 2, 462, 231, 4),
        (10, 20, 3, 462, 462, 8),
        (7, 7, 2, 128, 64, 1),
        (4, 12, 2, 130, 65, 2),
        (1, 1, 1, 8, 0, 0),
        (1, 1, 40, 8, 156, 3),
        (4_000, 4_000, 40, 32_016_002, 624_312_039, 9_754_876),
    ] {
        let terms = Terms {
            premium,
            level: 1,
            top,
            dates,
            ..P
        };
        let expected = gmwb::Sizes {
            number: 0,
            place: 0,
            work,
            table,
            map,
        };
        let name = format!("sizes of premium {premium}, top {top}, N {dates}");
        t.same(&name, gmwb::sizes(&terms.record()), expected);
    }
}

/// A valuation without a table, its working slice of exactly the needed length.
fn valued_no_table(terms: &Terms, lists: Lists, behaviour: u64) -> (gmwb::Valued, Vec<u64>) {
    let mut work = filled_64(2 * terms.layer());
    let (record, list, rates) = (terms.record(), list(lists.0), rate_list(lists.1));
    let answer = gmwb::value_no_table(&record, &list, &rates, behaviour, &mut work);
    (answer, work)
}

/// The cases of document 01: P's values and a state's, Q's values.
fn no_table_figures(t: &mut Tally) {
    for (terms, values) in [
        (P, [125_000, 125_000, 130_000]),
        (Q, [107_500, 110_000, 110_000]),
        (Terms { dates: 1, ..P }, [125_000; 3]),
    ] {
        let rates = terms.zero_rates();
        for (behaviour, value) in (0..).zip(values) {
            let (v, _) = valued_no_table(&terms, (&P_RETURNS, &rates), behaviour);
            let name = format!("without a table: {terms:?}, behaviour {behaviour}");
            let expected = (0, 0, value, value as i64 - 100_000);
            t.same(&name, (v.number, v.place, v.value, v.margin), expected);
        }
    }
    let (_, work) = valued_no_table(&P, P_LISTS, 2);
    t.same("case 2 without a table", work[P.entry(15, 10)], 160_000);
    let (record, returns, needed) = (P.record(), list(&P_RETURNS), 2 * P.layer());
    for lent in [0, needed / 2, needed - 1, needed, needed + 1, needed + 9] {
        let mut work = filled_64(lent);
        let v = gmwb::value_no_table(&record, &returns, &[0; 4], 2, &mut work);
        let name = format!("without a table: working slice of {lent}");
        let number = if lent < needed { 11 } else { 0 };
        t.same(&name, v.number, number);
        let written = if lent < needed { 0 } else { needed };
        let beyond = filled_64(lent)[written..].to_vec();
        t.same(&format!("{name}: beyond"), &work[written..], &beyond[..]);
    }
}

/// Without a table each valuation answers and leaves the same.
fn same_without_table(t: &mut Tally, name: &str, terms: &Terms, lists: Lists, runs: &[Run; 3]) {
    for (behaviour, (answer, work, _)) in (0..).zip(runs) {
        let (again, left) = valued_no_table(terms, lists, behaviour);
        t.same(&format!("{name}: without a table"), again, *answer);
        t.same(&format!("{name}: without a table, work"), &left, work);
    }
}

// ------------------------------------------------------------ The program's text

fn printed(t: &mut Tally) {
    let expected = "static 125000\nmixed 125000\ndynamic 130000\n0 5 10 5 5 0\n1 15 10 5 5 0\n";
    let (record, returns) = (P.record(), list(&P_RETURNS));
    t.same(
        "printed P",
        gmwb::program(&record, &returns),
        expected.into(),
    );
    let packed = text::pack(include_str!("example-p.txt"));
    let rates = vec![0; 4];
    t.same(
        "example-p.txt",
        packed,
        Ok([record.clone(), returns.clone(), rates]),
    );
    let short = Terms { dates: 1, ..P }.record();
    let expected = "static 125000\nmixed 125000\ndynamic 125000\n";
    t.same(
        "printed N 1",
        gmwb::program(&short, &returns),
        expected.into(),
    );
    for (record, list, expected) in [
        (&[][..], &[][..], "refused 1 0\n"),
        (&record[..], &[][..], "refused 7 0\n"),
        (
            &record[..],
            &list(&[(0, 1), (30_001, 1)])[..],
            "refused 8 1\n",
        ),
    ] {
        t.same(
            "printed refusal",
            gmwb::program(record, list),
            expected.into(),
        );
    }
}

/// Two layers of 2,048 fit in 4,096 numbers, eight in a table of 16,384. Two layers of 2,049
/// do not, nor two of 4,096.
fn printed_within_slices(t: &mut Tally) {
    for (premium, top, dates, fits) in [
        (31, 63, 1, true),
        (1, 1_023, 1, true),
        (2, 682, 1, false),
        (1, 1_024, 1, false),
        (1, 2_047, 1, false),
        (1, 1_023, 9, true),
        (1, 1_023, 10, false),
    ] {
        let terms = Terms {
            premium,
            level: 1,
            top,
            dates,
            ..P
        };
        let single = list(&[(0, 10_000)]);
        let refused = gmwb::program(&terms.record(), &single) == "refused 11 0\n";
        t.same("the program's slices", refused, !fits);
    }
}

// ------------------------------------------------------------------ Refusals

/// The input of five operations; each takes its part. Sizes are asked for beside each check, by
/// `with_sizes`; valuing with a map, without a table and the search for a fee are called beside
/// each valuing, by `with_map`, `with_no_table` and `with_fee`.
#[derive(Clone)]
struct Call {
    record: Vec<u8>,
    list: Vec<u8>,
    rates: Vec<u8>,
    behaviour: u64,
    work: usize,
    table: Vec<u16>,
    date: u64,
    account: u64,
    guarantee: u64,
    amount: u64,
    buffer: usize,
    numbers: Vec<u16>,
    cash: usize,
}

impl Call {
    /// A field of the record of 2 bytes.
    fn field(&self, at: usize) -> u16 {
        u16::from_le_bytes([self.record[at], self.record[at + 1]])
    }

    /// The entries that the working slice needs.
    fn needed(&self) -> usize {
        2 * (usize::from(self.field(0)) + 1) * (usize::from(self.field(4)) + 1)
    }
}

/// Number and place from check, value, value_table, book and walk.
type Five = [(u64, u64); 5];

const FINE: Five = [(0, 0); 5];

/// A fault in the record is refused by each.
fn record_fault(number: u64) -> Five {
    [(number, 0); 5]
}

/// A fault in the list is refused by the three that take one.
fn list_fault(number: u64, place: u64) -> Five {
    let refused = (number, place);
    [(0, 0), refused, refused, (0, 0), refused]
}

/// A fault in the death rates is refused by the two that take some.
fn rate_fault(number: u64, place: u64) -> Five {
    let refused = (number, place);
    [(0, 0), refused, refused, (0, 0), (0, 0)]
}

/// A call that each operation takes: zero rates, a table of zeros, slices of the exact length.
fn good(terms: &Terms, returns: &[(u16, u16)]) -> Call {
    let decisions = usize::from(terms.dates).saturating_sub(1);
    Call {
        record: terms.record(),
        list: list(returns),
        rates: rate_list(&terms.zero_rates()),
        behaviour: 0,
        work: 2 * terms.layer(),
        table: vec![0; decisions * terms.layer()],
        date: 1,
        account: 0,
        guarantee: 0,
        amount: 0,
        buffer: 16,
        numbers: vec![0; usize::from(terms.dates)],
        cash: usize::from(terms.dates),
    }
}

fn good_p() -> Call {
    good(&P, &P_RETURNS)
}

/// Makes the five calls: number and place of each, and whether its figures are 0 and
/// its slices as before.
fn called(c: &Call) -> (Five, [bool; 5]) {
    let checked = gmwb::check(&c.record);
    let mut got = [(checked.number, checked.place); 5];
    let mut kept = [true; 5];

    let (mut work, mut table) = (filled_64(c.work), filled_16(c.table.len()));
    let (record, list, rates) = (&c.record, &c.list, &c.rates);
    let v = gmwb::value(record, list, rates, c.behaviour, &mut work, &mut table);
    got[1] = (v.number, v.place);
    kept[1] = work == filled_64(c.work) && table == filled_16(c.table.len());
    kept[1] &= v.value == 0 && v.margin == 0;

    let mut work = filled_64(c.work);
    let v = gmwb::value_table(record, list, rates, &mut work, &c.table);
    got[2] = (v.number, v.place);
    kept[2] = work == filled_64(c.work) && v.value == 0 && v.margin == 0;

    let mut buffer = filled_8(c.buffer);
    let (w, a) = (c.account, c.guarantee);
    let b = gmwb::book(record, c.date, w, a, c.amount, &mut buffer);
    got[3] = (b.number, b.place);
    kept[3] = buffer == filled_8(c.buffer);

    let mut cash = filled_64(c.cash);
    let b = gmwb::walk(record, list, &c.table, &c.numbers, &mut cash);
    got[4] = (b.number, b.place);
    kept[4] = cash == filled_64(c.cash);
    (got, kept)
}

/// Valuing with a map of some words, beside value's input: number and place, and whether
/// its figures are 0 and its slices as before.
fn called_with_map(c: &Call, words: usize) -> ((u64, u64), bool) {
    let (mut work, mut table) = (filled_64(c.work), filled_16(c.table.len()));
    let mut map = filled_map(words);
    let (record, list, rates) = (&c.record, &c.list, &c.rates);
    let (w, t, m) = (&mut work, &mut table, &mut map);
    let m = gmwb::value_map(record, list, rates, c.behaviour, w, t, m);
    let kept = work == filled_64(c.work) && table == filled_16(c.table.len());
    let zeros = m.valued.value == 0 && m.valued.margin == 0 && m.count == 0;
    let told = (m.valued.number, m.valued.place);
    (told, kept && zeros && map == filled_map(words))
}

impl Tally {
    /// With a map valuing answers as without. Check 16 is the last: without a word it is the
    /// answer where no other check fails and there are decision dates.
    fn with_map(&mut self, name: &str, call: &Call, valued: (u64, u64)) {
        let needs_words = valued == (0, 0) && call.record[6..8] != [1, 0];
        let without = if needs_words { (16, 0) } else { valued };
        let enough = call.table.len().div_ceil(64);
        for (words, expected) in [(0, without), (enough, valued)] {
            let name = format!("{name}: map of {words} words");
            let (got, kept) = called_with_map(call, words);
            self.same(&name, got, expected);
            self.same(&format!("{name}: kept"), got.0 == 0 || kept, true);
        }
    }

    /// Sizes are refused as a check is, all 0.
    fn with_sizes(&mut self, name: &str, call: &Call, checked: (u64, u64)) {
        let got = gmwb::sizes(&call.record);
        let (mut work, mut table) = (0, 0);
        if checked == (0, 0) {
            work = call.needed() as u64;
            table = work / 2 * (u64::from(call.field(6)) - 1);
        }
        let (number, place) = checked;
        let expected = gmwb::Sizes {
            number,
            place,
            work,
            table,
            map: table.div_ceil(64),
        };
        self.same(&format!("{name}: sizes"), got, expected);
    }

    /// Without a table valuing answers as with one that is long enough.
    fn with_no_table(&mut self, name: &str, call: &Call, valued: (u64, u64)) {
        let name = format!("{name}: without a table");
        let (list, rates, behaviour) = (&call.list, &call.rates, call.behaviour);
        let mut work = filled_64(call.work);
        let v = gmwb::value_no_table(&call.record, list, rates, behaviour, &mut work);
        let lacks_table = valued == (11, 0) && call.work >= call.needed();
        if valued != (0, 0) && !lacks_table {
            let told = (v.number, v.place, v.value, v.margin);
            self.same(&name, told, (valued.0, valued.1, 0, 0));
            self.same(&format!("{name}: kept"), work, filled_64(call.work));
            return;
        }
        let mut left = filled_64(call.work);
        let mut table = vec![0; (usize::from(call.field(6)) - 1) * call.needed() / 2];
        let expected = gmwb::value(&call.record, list, rates, behaviour, &mut left, &mut table);
        self.same(&name, (v, work), (expected, left));
    }

    /// A search for a fee is refused as valuing is, but that no table is lent. Else fee 0 meets
    /// the largest number wanted, and 0 is met by what is worth nothing or refused by 19.
    fn with_fee(&mut self, name: &str, call: &Call, valued: (u64, u64)) {
        let (field, needed) = (|at| call.field(at), || call.needed());
        let searches = valued == (0, 0) || valued == (11, 0) && call.work >= needed();
        // Fee after fee is tried for what is not met, so only with small contracts.
        let unmet = !searches || field(4) <= 20 && field(6) <= 4;
        for wanted in [u64::MAX, 0].into_iter().filter(|w| *w > 0 || unmet) {
            let name = format!("{name}: wanted {wanted}");
            let (mut work, mut left) = (filled_64(call.work), filled_64(call.work));
            let (list, rates) = (&call.list, &call.rates);
            let found = gmwb::fee(&call.record, list, rates, call.behaviour, wanted, &mut work);
            let v = found.valued;
            if searches {
                left[..needed()].fill(0);
                let met = (v.number, v.place) == (0, 0) && v.value <= wanted;
                let met = met && (wanted == 0 || found.fee == 0);
                self.same(&name, met || (wanted == 0 && v == NO_FEE), true);
            } else {
                self.same(&name, (v.number, v.place), valued);
                let figures = (found.fee, v.value, v.margin);
                self.same(&format!("{name}: figures"), figures, (0, 0, 0));
            }
            self.same(&format!("{name}: left"), work, left);
        }
    }

    /// The five answers are those expected, and a refusal has changed nothing.
    fn five(&mut self, name: &str, call: &Call, expected: Five) {
        let got = self.refusals_change_nothing(name, call);
        self.same(name, got, expected);
    }

    fn refusals_change_nothing(&mut self, name: &str, call: &Call) -> Five {
        let (got, kept) = called(call);
        for (i, (number, _)) in got.into_iter().enumerate() {
            let sound = number == 0 || kept[i];
            let name = format!("{name}: slices and figures of call {i}");
            self.same(&name, sound, true);
        }
        self.with_sizes(name, call, got[0]);
        self.with_map(name, call, got[1]);
        self.with_no_table(name, call, got[1]);
        self.with_fee(name, call, got[1]);
        got
    }

    fn terms(&mut self, name: &str, terms: Terms, number: u64) {
        let call = good(&terms, &P_RETURNS);
        // Slices for a record out of range are not sized by it.
        let call = if number == 0 {
            call
        } else {
            Call {
                record: call.record,
                ..good_p()
            }
        };
        let mut expected = record_fault(number);
        if number == 0 && terms.dates == 1 {
            expected[3] = (12, 0);
        }
        self.five(name, &call, expected);
    }
}

#[rustfmt::skip]
fn record_boundaries(t: &mut Tally) {
    t.five("P", &good_p(), FINE);
    for length in [0, 1, 15, 16, 17, 18, 19, 21, 40] {
        let mut record = P.record();
        record.resize(length, 0);
        t.five("record length", &Call { record, ..good_p() }, record_fault(1));
    }
    t.terms("top 4,000", Terms { top: 4_000, ..P }, 0);
    t.terms("top 4,001", Terms { top: 4_001, ..P }, 2);
    t.terms("top 65,535", Terms { top: 65_535, ..P }, 2);
    t.terms("premium at top", Terms { top: 10, ..P }, 0);
    t.terms("premium above top", Terms { top: 9, ..P }, 2);
    t.terms("premium 0", Terms { premium: 0, ..P }, 2);
    t.terms("premium and top 0", Terms { premium: 0, top: 0, ..P }, 2);
    t.terms("premium 1", Terms { premium: 1, level: 1, top: 1, ..P }, 0);
    t.terms("level 0", Terms { level: 0, ..P }, 3);
    t.terms("level 1", Terms { level: 1, ..P }, 0);
    t.terms("level at premium", Terms { level: 10, ..P }, 0);
    t.terms("level above premium", Terms { level: 11, ..P }, 3);
    t.terms("dates 0", Terms { dates: 0, ..P }, 4);
    t.terms("dates 1", Terms { dates: 1, ..P }, 0);
    t.terms("dates 40", Terms { dates: 40, ..P }, 0);
    t.terms("dates 41", Terms { dates: 41, ..P }, 4);
    t.terms("fee 10,000", Terms { fee: 10_000, ..P }, 0);
    t.terms("fee 10,001", Terms { fee: 10_001, ..P }, 5);
    t.terms("penalty 0", Terms { penalty: 0, ..P }, 0);
    t.terms("penalty 10,000", Terms { penalty: 10_000, ..P }, 0);
    t.terms("penalty 10,001", Terms { penalty: 10_001, ..P }, 5);
    t.terms("discount 0", Terms { discount: 0, ..P }, 6);
    t.terms("discount 1", Terms { discount: 1, ..P }, 0);
    t.terms("discount 1,000,001", Terms { discount: 1_000_001, ..P }, 6);
    t.terms("step 1", Terms { step: 1, ..P }, 0);
    t.terms("step 9,999", Terms { step: 9_999, ..P }, 0);
    t.terms("step 10,000", Terms { step: 10_000, ..P }, 0);
    t.terms("step 10,001", Terms { step: 10_001, ..P }, 15);
    t.terms("step 65,535", Terms { step: 65_535, ..P }, 15);
    t.terms("spare bytes 1, 0", Terms { spare: 1, ..P }, 15);
    t.terms("spare bytes 0, 1", Terms { spare: 256, ..P }, 15);
    t.terms("spare bytes 1, 1", Terms { spare: 257, ..P }, 15);
    t.terms("spare bytes 255, 255", Terms { spare: 65_535, ..P }, 15);
    t.terms("step 10,000, spare 1", Terms { step: 10_000, spare: 1, ..P }, 15);
}

fn list_boundaries(t: &mut Tally) {
    for length in [0, 1, 3, 5, 7, 255, 257, 260, 1_024] {
        let call = Call {
            list: vec![0; length],
            ..good_p()
        };
        t.five("list length", &call, list_fault(7, 0));
    }
    let most: Vec<(u16, u16)> = (0..64)
        .map(|i| (i, if i < 16 { 157 } else { 156 }))
        .collect();
    t.five("64 records", &good(&P, &most), FINE);
    let whole = 10_000;
    for (returns, expected) in [
        (vec![(30_000, whole)], FINE),
        (vec![(30_001, whole)], list_fault(8, 0)),
        (vec![(0, whole)], FINE),
        (vec![(0, whole + 1)], list_fault(8, 0)),
        (vec![(0, 0), (0, whole)], list_fault(8, 0)),
        (vec![(0, whole), (0, 0)], list_fault(8, 1)),
        (vec![(0, 1), (0, whole - 1)], FINE),
        (vec![(0, 1), (0, 1), (65_535, 1), (0, 0)], list_fault(8, 2)),
        (vec![(7, 5_000), (7, 5_000)], FINE),
        (vec![(0, whole - 1)], list_fault(9, 0)),
        (vec![(0, whole), (0, 1)], list_fault(9, 0)),
        (vec![(0, whole); 64], list_fault(9, 0)),
    ] {
        t.five("list", &good(&P, &returns), expected);
    }
}

/// Lengths around 2 × N, with accepted rates and with ones that 18 refuses; each index.
fn rate_boundaries(t: &mut Tally) {
    for dates in [1, 2, 40] {
        let fine = good(
            &Terms {
                dates,
                top: 10,
                ..P
            },
            &P_RETURNS,
        );
        let expected = |refused: Five| match dates {
            1 => [refused[0], refused[1], refused[2], (12, 0), refused[4]],
            _ => refused,
        };
        let needed = 2 * usize::from(dates);
        for (length, byte) in (0..needed + 6).flat_map(|length| [(length, 1), (length, 255)]) {
            let refused = match (length == needed, byte) {
                (false, _) => rate_fault(17, 0),
                (_, 1) => FINE,
                _ => rate_fault(18, 0),
            };
            let rates = vec![byte; length];
            let call = Call {
                rates,
                ..fine.clone()
            };
            let name = format!("{length} bytes of {byte} as rates, N {dates}");
            t.five(&name, &call, expected(refused));
        }
        for (index, rate) in (0..dates).flat_map(|i| [10_000, 10_001, 65_535].map(|r| (i, r))) {
            let mut rates = vec![10_000; dates.into()];
            rates[usize::from(index)..].fill(rate);
            let refused = match rate {
                10_000 => FINE,
                _ => rate_fault(18, index.into()),
            };
            let rates = rate_list(&rates);
            let call = Call {
                rates,
                ..fine.clone()
            };
            let name = format!("rates of {rate} from {index} on, N {dates}");
            t.five(&name, &call, expected(refused));
        }
    }
}

#[rustfmt::skip]
fn slice_boundaries(t: &mut Tally) {
    let short = (11, 0);
    let fine = (0, 0);
    let p = good_p();
    for work in [0, 231, 461] {
        let call = Call { work, ..p.clone() };
        t.five("work one short", &call, [fine, short, short, fine, fine]);
    }
    t.five("work longer", &Call { work: 463, ..p.clone() }, FINE);
    for length in [0, 230] {
        let call = Call { table: vec![0; length], ..p.clone() };
        t.five("table one short", &call, [fine, short, short, fine, short]);
    }
    t.five("table longer", &Call { table: vec![0; 232], ..p.clone() }, FINE);
    for cash in [0, 1] {
        let call = Call { cash, ..p.clone() };
        t.five("cash one short", &call, [fine, fine, fine, fine, short]);
    }
    t.five("cash longer", &Call { cash: 3, ..p.clone() }, FINE);
    for buffer in [0, 15, 17] {
        let call = Call { buffer, ..p.clone() };
        t.five("buffer length", &call, [fine, fine, fine, short, fine]);
    }
    for behaviour in [1, 2] {
        t.five("behaviour", &Call { behaviour, ..p.clone() }, FINE);
    }
    for behaviour in [3, 256, u64::MAX] {
        let call = Call { behaviour, ..p.clone() };
        t.five("no behaviour", &call, [fine, (10, 0), fine, fine, fine]);
    }
    let single = good(&Terms { dates: 1, ..P }, &P_RETURNS);
    t.same("empty table for N 1", single.table.len(), 0);
    t.five("N 1", &single, [fine, fine, fine, (12, 0), fine]);
}

fn booking_boundaries(t: &mut Tally) {
    let three = Terms { dates: 3, ..P };
    for (date, account, guarantee, amount, number) in [
        (0, 0, 0, 0, 12),
        (1, 0, 0, 0, 0),
        (2, 0, 0, 0, 0),
        (3, 0, 0, 0, 12),
        (u64::MAX, 0, 0, 0, 12),
        (1, 20, 0, 0, 0),
        (1, 21, 0, 0, 12),
        (1, u64::MAX, 0, u64::MAX, 12),
        (1, 0, 10, 0, 0),
        (1, 0, 11, 0, 12),
        (1, 0, u64::MAX, 0, 12),
        (1, 20, 10, 20, 0),
        (1, 20, 10, 21, 14),
        (1, 3, 10, 5, 0),
        (1, 3, 10, 6, 14),
        (1, 0, 2, 2, 0),
        (1, 0, 2, 3, 14),
        (1, 0, 0, 1, 14),
        (1, 20, 10, u64::MAX, 14),
    ] {
        let call = Call {
            date,
            account,
            guarantee,
            amount,
            ..good(&three, &P_RETURNS)
        };
        let name = format!("booking {amount} at date {date}, ({account}, {guarantee})");
        t.five(&name, &call, [(0, 0), (0, 0), (0, 0), (number, 0), (0, 0)]);
    }
}

fn number_boundaries(t: &mut Tally) {
    let three = Terms { dates: 3, ..P };
    for (numbers, place) in [
        (vec![1, 1, 1], None),
        (vec![], Some(3)),
        (vec![9, 9], Some(3)),
        (vec![9, 9, 9, 9], Some(3)),
        (vec![2, 0, 0], Some(0)),
        (vec![0, 2, 65_535], Some(1)),
        (vec![1, 1, 2], Some(2)),
    ] {
        let name = format!("return numbers {numbers:?}");
        let call = Call {
            numbers,
            ..good(&three, &P_RETURNS)
        };
        let mut expected = FINE;
        if let Some(place) = place {
            expected[4] = (13, place);
        }
        t.five(&name, &call, expected);
    }
}

/// The table's first amounts beyond the dynamic set, met by the walk or not. With a
/// table of zeros and return 1 always, three dates meet (15, 10), then (20, 10).
fn amount_boundaries(t: &mut Tally) {
    let terms = Terms { dates: 3, ..P };
    let second = terms.layer();
    let (met_1, met_2) = (terms.entry(15, 10), second + terms.entry(20, 10));
    let (first, last) = (terms.entry(0, 0), second + terms.entry(20, 9));
    let (fine, walk_1, walk_2) = ((0, 0), (14, 1), (14, 2));
    for (entries, found, walked) in [
        (vec![(met_1, 15)], None, fine),
        (vec![(met_1, 16)], Some(met_1), walk_1),
        (vec![(met_1, 65_535)], Some(met_1), walk_1),
        (vec![(met_2, 20)], None, fine),
        (vec![(met_2, 21)], Some(met_2), walk_2),
        (vec![(met_1, 16), (met_2, 21)], Some(met_1), walk_1),
        (vec![(first, 1)], Some(first), fine),
        (vec![(first, 1), (met_2, 21)], Some(first), walk_2),
        (vec![(last, 21)], Some(last), fine),
        (vec![(terms.entry(3, 10), 5)], None, fine),
        (
            vec![(terms.entry(3, 10), 6)],
            Some(terms.entry(3, 10)),
            fine,
        ),
        (vec![(second + first, 1)], Some(second + first), fine),
        (vec![(2 * second, 1)], None, fine),
    ] {
        let mut call = good(&terms, &P_RETURNS);
        call.numbers = vec![1, 1, 1];
        call.table.push(0);
        for (place, amount) in &entries {
            call.table[*place] = *amount;
        }
        let found = found.map_or(fine, |place| (14, place as u64));
        let name = format!("table with {entries:?}");
        t.five(&name, &call, [fine, fine, found, fine, walked]);
    }
}

// -------------------------------------------------------- Order of the checks

/// Everything wrong at once, then put right in the order of the table.
fn all_wrong() -> (Terms, Call) {
    let terms = Terms {
        premium: 0,
        level: 0,
        top: 20,
        dates: 0,
        fee: 10_001,
        penalty: 10_001,
        discount: 0,
        step: 10_001,
        spare: 1,
    };
    let call = Call {
        list: vec![255; 3],
        rates: vec![255; 5],
        behaviour: 3,
        work: 0,
        table: Vec::new(),
        date: 0,
        account: 21,
        amount: 99,
        buffer: 15,
        numbers: Vec::new(),
        cash: 0,
        ..good_p()
    };
    (terms, call)
}

fn order_of_record_checks(t: &mut Tally) {
    let (mut terms, mut call) = all_wrong();
    let mut step = |number: u64, terms: &Terms| {
        call.record = terms.record();
        t.five("order of the record's checks", &call, record_fault(number));
    };
    step(2, &terms);
    terms.premium = 10;
    step(3, &terms);
    terms.level = 5;
    step(4, &terms);
    terms.dates = 2;
    step(5, &terms);
    terms.fee = 0;
    step(5, &terms);
    terms.penalty = 1_000;
    step(6, &terms);
    terms.discount = 1_000_000;
    step(15, &terms);
    terms.step = 10_000;
    step(15, &terms);
    call.record.pop();
    t.five("order: record length first", &call, record_fault(1));
}

fn order_of_later_checks(t: &mut Tally) {
    let (_, mut call) = all_wrong();
    let name = "order of the later checks";
    let (fine, short) = ((0, 0), (11, 0));
    t.five(name, &call, [fine, (7, 0), (7, 0), short, (7, 0)]);
    call.list = list(&[(0, 1), (30_001, 1)]);
    t.five(name, &call, [fine, (8, 1), (8, 1), short, (8, 1)]);
    call.list = list(&[(0, 1), (30_000, 1)]);
    t.five(name, &call, [fine, (9, 0), (9, 0), short, (9, 0)]);
    call.list = list(&P_RETURNS);
    t.five(name, &call, [fine, (17, 0), (17, 0), short, short]);
    call.rates = vec![255; 3];
    t.five(name, &call, [fine, (17, 0), (17, 0), short, short]);
    call.rates = rate_list(&[10_000, 10_001]);
    t.five(name, &call, [fine, (18, 1), (18, 1), short, short]);
    let room = Call {
        work: 462,
        table: vec![99; 231],
        ..call.clone()
    };
    t.five(name, &room, [fine, (18, 1), (18, 1), short, short]);
    call.rates = rate_list(&[10_000, 10_000]);
    t.five(name, &call, [fine, (10, 0), short, short, short]);
    call.behaviour = 2;
    call.buffer = 16;
    t.five(name, &call, [fine, short, short, (12, 0), short]);
    call.work = 462;
    call.cash = 2;
    call.date = 1;
    t.five(name, &call, [fine, short, short, (12, 0), short]);
    call.table = vec![99; 231];
    call.account = 20;
    t.five(name, &call, [fine, fine, (14, 0), (14, 0), (13, 2)]);
    call.numbers = vec![0, 2];
    call.amount = 20;
    t.five(name, &call, [fine, fine, (14, 0), fine, (13, 1)]);
    call.numbers = vec![0, 1];
    t.five(name, &call, [fine, fine, (14, 0), fine, (14, 1)]);
}

// ------------------------------------------------------- After a success

/// Slices longer than needed: the parts named by the document, and the rest as before.
fn left_in_slices(t: &mut Tally) {
    let (record, returns, layer) = (P.record(), list(&P_RETURNS), P.layer());
    let rates = rate_list(&[2_500, 5_000]);
    let (mut work, mut table) = (filled_64(2 * layer + 9), filled_16(layer + 9));
    gmwb::value(&record, &returns, &rates, 2, &mut work, &mut table);
    let second_zero = work[layer..2 * layer].iter().all(|x| *x == 0);
    t.same("second layer zeros", second_zero, true);
    let rest = filled_64(2 * layer + 9)[2 * layer..].to_vec();
    let wide = rest.iter().all(|x| *x > 1 << 32);
    t.same("work beyond above 2^32", wide, true);
    t.same("work beyond", work[2 * layer..].to_vec(), rest);
    let beyond = filled_16(layer + 9)[layer..].to_vec();
    t.same("table beyond", table[layer..].to_vec(), beyond);

    let mut again = filled_64(2 * layer + 9);
    gmwb::value_table(&record, &returns, &rates, &mut again, &table);
    t.same("work after a supplied table", again, work);

    let mut cash = filled_64(4);
    let answer = gmwb::walk(&record, &returns, &table, &[1, 0], &mut cash);
    t.same("walk", (answer.number, answer.place), (0, 0));
    // At (15, 10) the table draws nothing; balance 15 falls to 7 beside guarantee 10.
    t.same("cash of the walk", &cash[..2], &[0, 100_000][..]);
    t.same("cash beyond", &cash[2..], &filled_64(4)[2..]);

    let short = Terms { dates: 1, ..P };
    let (_, work, _) = valued(&short, &P_RETURNS, 0);
    for (w, a) in short.states() {
        let expected = 10_000 * w.max(a);
        t.same("N 1: maturity values", work[short.entry(w, a)], expected);
    }
}

/// "rounded down a single time": 3 × 1.5 × 0.9 = 4.05 gives 4. Rounding after the factor
/// too would give 3.
fn rounded_once(t: &mut Tally) {
    let terms = Terms {
        premium: 3,
        level: 1,
        fee: 1_000,
        ..P
    };
    let single = list(&[(15_000, 10_000)]);
    let got = gmwb::program(&terms.record(), &single);
    let account = got.lines().nth(3).and_then(|l| l.split(' ').nth(1));
    t.same("rounded once", account, Some("4"));
}

/// Large values by withdrawals: of an account of 4,000 that triples 2,666 are drawn on each of
/// 39 dates, 1,334 stay and come to 2 more than 4,000, and 4,000 remain.
fn large_values(t: &mut Tally) {
    let terms = Terms {
        premium: 1,
        level: 1,
        top: 4_000,
        dates: 40,
        penalty: 0,
        ..P
    };
    let mut table = Vec::new();
    for _ in 1..terms.dates {
        let keep = terms
            .states()
            .into_iter()
            .map(|(w, _)| (w - w.div_ceil(3)) as u16);
        table.extend(keep);
    }
    let mut work = vec![0; 2 * terms.layer()];
    let (single, rates) = (list(&[(30_000, 10_000)]), rate_list(&terms.zero_rates()));
    let v = gmwb::value_table(&terms.record(), &single, &rates, &mut work, &table);
    t.same("large values: accepted", v.number, 0);
    let expected = 39 * (26_660_000 + 20_000) + 40_000_000;
    t.same("large values", work[terms.entry(4_000, 0)], expected);
}

/// Answers to script lines, with digests worked out apart. T is the least contract: an
/// account and a guarantee of 1, one date, one return that changes nothing.
fn script_lines(t: &mut Tally) {
    let p = "0a000500140002000000e80340420f0000000000";
    let least = "01000100010001000000000040420f0000000000";
    let valued = "0 0 10000 0 3700988814 7 0,10000,10000,10000,0,0,0,0 -";
    let longer = "0 0 10000 0 3061567026 7 0,10000,10000,10000,0,0,0,0,4295030648 -";
    let with_map = "0 0 10000 0 0 3700988814 7 13592 0,10000,10000,10000,0,0,0,0 - \
                    18446744073709551556,7918";
    let no_table = "0 0 10000 0 3700988814 0,10000,10000,10000,0,0,0,0";
    let met = "0 0 0 10000 0 2892625099 0,0,0,0,0,0,0,0";
    let unmet = "19 0 0 0 0 3772095607 0,0,0,0,0,0,0,0,4295030648";
    t.same("digest of nothing", digest::<u64>(&[]), 7);
    t.same("digest of 0, 5", digest(&[0u16, 5]), (7 * 31 + 1) * 31 + 6);
    // 2^32 is 5 more than the modulus, so 2^64 leaves 25.
    t.same("digest of 2^64 - 1", digest(&[u64::MAX]), 7 * 31 + 24 + 1);
    for (line, expected) in [
        ("check P", "0 0"),
        ("check -", "1 0"),
        ("check 00", "1 0"),
        ("sizes P", "0 0 462 231 4"),
        ("sizes T", "0 0 8 0 0"),
        ("sizes -", "1 0 0 0 0"),
        ("value_no_table T 10271027 0000 0 8:5", no_table),
        ("value_no_table T 10271027 1027 2 8:5", no_table),
        (
            "value_no_table T 10271027 1127 0 2:5",
            "18 0 0 0 14838 5,7924",
        ),
        (
            "value_no_table T 10271027 0000 3 2:5",
            "10 0 0 0 14838 5,7924",
        ),
        ("value_no_table T 10271027 0000 0 -", "11 0 0 0 7 -"),
        ("value T 10271027 0000 0 8:5 -", valued),
        ("value T 10271027 1027 0 8:5 -", valued),
        (
            "value_map T 10271027 0000 0 8:5 - 2:18446744073709551556",
            with_map,
        ),
        ("value_table T 10271027 0000 8:5 -", valued),
        ("value T 10271027 0000 0 9:4294967296 -", longer),
        ("value_table T 10271027 0000 9:4294967296 -", longer),
        ("value T 10271027 - 0 2:5 -", "17 0 0 0 14838 7 5,7924 -"),
        ("value T 10271027 1127 0 2:5 -", "18 0 0 0 14838 7 5,7924 -"),
        (
            "value_map T 10271027 000000 0 2:5 - -",
            "17 0 0 0 0 14838 7 7 5,7924 - -",
        ),
        (
            "value_table T 10271027 1127 2:5 -",
            "18 0 0 0 14838 7 5,7924 -",
        ),
        ("fee T 10271027 0000 0 10000 8:5", met),
        ("fee T 10271027 0000 2 18446744073709551615 8:5", met),
        ("fee T 10271027 0000 0 9999 9:4294967296", unmet),
        ("fee T 10271027 0000 3 9999 2:5", "10 0 0 0 0 14838 5,7924"),
        ("fee T 10271027 0000 0 9999 2:5", "11 0 0 0 0 14838 5,7924"),
        ("fee T 10271027 0000 0 9999 -", "11 0 0 0 0 7 -"),
        ("book P 1 15 10 6 3:250", "11 0 454051 fa8918"),
        ("book P 1 15 10 6 2:9:1", "11 0 6759 0000"),
        ("book P 1 15 10 6 -", "11 0 7 -"),
        ("walk T 10271027 - 0 2:9", "0 0 7 324687 - 10000,7928"),
        (
            "walk T 10271027 - 0 2:4294967305",
            "0 0 7 324692 - 10000,4294975224",
        ),
    ] {
        let line = line.replace('P', p).replace('T', least);
        t.same(&line, answer(&line, true), Ok(expected.into()));
    }
    let booked = answer(&format!("book {p} 1 15 10 6 16:4"), true);
    let ends = booked.is_ok_and(|a| a.ends_with(" 78e60000e80300000900040000000000"));
    t.same("booking in a script", ends, true);
    for line in [
        "",
        "check",
        "check  ",
        "check 0",
        "check 0A",
        "sizes",
        "sizes 0",
        "sizes - -",
        "value_no_table - - - 0",
        "value_no_table - - - 0 - -",
        "value_no_table - - - 0 =",
        "value - - - 0 1:x -",
        "value - - 0 1:5 -",
        "value - - 0g 0 1:5 -",
        "value_map - - 0 1:5 - -",
        "value_table - - 1:5 -",
        "fee - - - 0 1:5",
        "fee - - - 0 -1 1:5",
        "fee - - - 0 18446744073709551616 1:5",
        "fee - - - 0 0 =",
        "walk - - - - - -",
    ] {
        t.same("line not understood", answer(line, false).is_err(), true);
    }
}

/// Sizes, a valuation without a table and a search have no table: the last one is still there
/// behind them.
fn table_behind_search(t: &mut Tally) {
    let record = "01000100010002000000000040420f0000000000";
    let least = format!("{record} 10271027 00000000 0");
    let mut session = Session::default();
    let valued = session.answer(&format!("value {least} 8:5 4:5"), false);
    let table = session.table().to_vec();
    for line in [
        format!("fee {least} 9999 8:5"),
        format!("fee {least} 10000 8:5"),
        format!("sizes {record}"),
        format!("value_no_table {least} 8:5"),
        format!("value_no_table {least} 7:5"),
    ] {
        let answered = session.answer(&line, false).is_ok();
        t.same(&line, (valued.is_ok(), answered), (true, true));
        t.same("the last table", session.table(), &table[..]);
    }
    t.same("a table of 4", table.len(), 4);
}

// ------------------------------------------------------ Sums by account reached

fn sums_by_account(t: &mut Tally, draw: &mut Draw) {
    for k in 0..2_000 {
        any_list_grouped(t, draw, k);
    }
    let mut merged = [0; 2];
    for k in 0..60 {
        let joins = grouped_contract(t, draw, k);
        for (count, joins) in merged.iter_mut().zip(joins) {
            *count += u64::from(joins);
        }
    }
    t.same("lists that join below top", merged[0] >= 30, true);
    t.same("lists that join above top", merged[1] >= 10, true);
}

/// Up to 64 records of any bytes, accepted or not, or of few factors; over any values and any
/// balance, with any rate: the grouped sum is that of the list.
fn any_list_grouped(t: &mut Tally, draw: &mut Draw, k: u64) {
    let terms = draw.terms();
    let few = [5_000, 10_000, 15_000, 30_000, draw.upto(65_535) as u16];
    let mut list: Vec<(u16, u16)> = Vec::new();
    for _ in 0..draw.upto([3, 8, 64][k as usize % 3]) {
        let factor = match draw.upto(2) {
            0 => draw.upto(65_535) as u16,
            _ => few[draw.upto(4) as usize],
        };
        list.push((factor, draw.upto(65_535) as u16));
    }
    let values: Vec<u64> = (0..terms.layer())
        .map(|_| draw.upto(3_240_000_000 - 1))
        .collect();
    let rates = [draw.upto(10_000) as u16];
    let reached = |at: &Arrival| reached_at(&rates, at);
    let (top, premium) = (u64::from(terms.top), u64::from(terms.premium));
    for balance in [0, 1, draw.upto(top), top] {
        let from = (balance, draw.upto(premium));
        let [by_list, grouped] = [discounted, discounted_by_account]
            .map(|sum: Sum| sum(&terms, &list, (0, &values), from, &reached));
        let name = format!("any list {k}: {terms:?} {list:?}, from {from:?}");
        t.same(&name, grouped, by_list);
    }
}

/// What a valuation of the second program, which sums by the list, gives and leaves: with the
/// sums grouped; and with the list in another order, its equal factors split or joined. Gives
/// whether some of the returns join from a balance, below top and above it.
fn grouped_contract(t: &mut Tally, draw: &mut Draw, k: u64) -> [bool; 2] {
    let terms = draw.under(1 + (k % 6) as u16, 1 + (k % 4) as u16);
    let returns = draw.alike(1 + [2, 5, 12, 63][k as usize % 4]);
    let rates = draw.rates(terms.dates);
    let lists = (&returns[..], &rates[..]);
    let name = format!("grouped {k}: {terms:?} {returns:?} {rates:?}");
    let others = draw.other_lists(&returns);
    let reached = |at: &Arrival| reached_at(&rates, at);
    for behaviour in 0..3 {
        let run = valued_with(&terms, &returns, &rates, behaviour);
        let got = (run.0.value, &run.1[..terms.layer()], &run.2);
        let sum = discounted_by_account;
        let (value, values, amounts) =
            valued_summed(&terms, &returns, behaviour as usize, sum, &reached);
        t.same(&name, got, (value, &values[..], &amounts));
        for (how, other) in &others {
            let again = valued_with(&terms, other, &rates, behaviour);
            t.same(&format!("{name}: {how} {other:?}"), &again, &run);
        }
    }
    if k % 5 == 0 {
        fees_of_others(t, &name, &terms, lists, &others);
    }
    let joins = |above: bool| {
        let mut balances = 1..=u64::from(terms.top);
        balances.any(|balance| {
            let mut led: Vec<(u64, u64)> = returns
                .iter()
                .map(|(factor, _)| terms.reached(balance, *factor))
                .filter(|(_, excess)| (*excess > 0) == above)
                .collect();
            let count = led.len();
            led.sort_unstable();
            led.dedup();
            led.len() > 1 && led.len() < count
        })
    };
    [joins(false), joins(true)]
}

/// The same for a map, a supplied table and searches for a fee.
fn fees_of_others(
    t: &mut Tally,
    name: &str,
    terms: &Terms,
    (returns, rates): Lists,
    others: &[(&str, Vec<(u16, u16)>)],
) {
    let words = (usize::from(terms.dates) - 1) * terms.layer();
    let words = words.div_ceil(64);
    for behaviour in 0..3 {
        let mapped = mapped_with(terms, returns, rates, behaviour, words);
        let table = &mapped.1 .2;
        let supplied = |returns: &[(u16, u16)]| {
            let mut work = filled_64(2 * terms.layer());
            let (list, rates) = (list(returns), rate_list(rates));
            let answer = gmwb::value_table(&terms.record(), &list, &rates, &mut work, table);
            (answer, work)
        };
        let wanted = at_fee(terms, (returns, rates), behaviour, 40).value;
        let found = searched(terms, (returns, rates), behaviour, wanted);
        for (how, other) in others {
            let name = format!("{name}: {how} {other:?}");
            let again = mapped_with(terms, other, rates, behaviour, words);
            t.same(&format!("{name}: map"), &again, &mapped);
            let again = supplied(other);
            t.same(&format!("{name}: supplied"), again, supplied(returns));
            let again = searched(terms, (other, rates), behaviour, wanted);
            t.same(&format!("{name}: fee"), &again, &found);
        }
    }
}

// --------------------------------------------------- Random small contracts

/// A small generator of its own, the same on every run.
struct Draw(u64);

impl Draw {
    /// A number from 0 to `most`.
    fn upto(&mut self, most: u64) -> u64 {
        self.0 = self.0.wrapping_mul(6_364_136_223_846_793_005);
        self.0 = self.0.wrapping_add(1_442_695_040_888_963_407);
        (self.0 >> 33) % (most + 1)
    }

    fn terms(&mut self) -> Terms {
        let top = 1 + self.upto(9) as u16;
        let premium = 1 + self.upto(u64::from(top) - 1) as u16;
        let fees = [0, 300, 10_000][self.upto(2) as usize];
        let steps = [0, 1_000, 4_000, 10_000][self.upto(3) as usize];
        Terms {
            premium,
            level: 1 + self.upto(u64::from(premium) - 1) as u16,
            top,
            dates: 1 + self.upto(3) as u16,
            fee: self.upto(fees) as u16,
            penalty: self.upto(10_000) as u16 * self.upto(1) as u16,
            discount: 1_000_000 - self.upto(100_000) as u32,
            step: self.upto(steps) as u16,
            spare: 0,
        }
    }

    /// A contract under some top, with some dates.
    fn under(&mut self, top: u16, dates: u16) -> Terms {
        let premium = 1 + self.upto(u64::from(top) - 1) as u16;
        Terms {
            premium,
            level: 1 + self.upto(u64::from(premium) - 1) as u16,
            top,
            dates,
            ..self.terms()
        }
    }

    fn returns(&mut self) -> Vec<(u16, u16)> {
        let mut left = 10_000;
        let mut returns = Vec::new();
        for _ in 0..self.upto(3) {
            let weight = 1 + self.upto(3_000) as u16;
            returns.push((self.upto(30_000) as u16, weight));
            left -= weight;
        }
        returns.push((5_000 + self.upto(10_000) as u16, left));
        returns
    }

    /// `count` accepted returns, many of equal or near factors.
    fn alike(&mut self, count: usize) -> Vec<(u16, u16)> {
        let some = self.upto(30_000) as u16;
        let mut left = 10_000;
        let mut returns = Vec::new();
        for behind in (0..count as u64).rev() {
            let weight = match behind {
                0 => left,
                _ => 1 + self.upto((left - behind).min(2 * left / (behind + 1)) - 1),
            };
            left -= weight;
            let factor = match self.upto(4) {
                0 => some,
                1 => [0, 10_000, 20_000, 30_000][self.upto(3) as usize],
                2 => (some + self.upto(20) as u16).min(30_000),
                _ => self.upto(30_000) as u16,
            };
            returns.push((factor, weight as u16));
        }
        returns
    }

    fn shuffled(&mut self, returns: &[(u16, u16)]) -> Vec<(u16, u16)> {
        let mut shuffled = returns.to_vec();
        for last in (1..shuffled.len()).rev() {
            shuffled.swap(last, self.upto(last as u64) as usize);
        }
        shuffled
    }

    /// The same returns in other orders, with a return split in two of its factor, and with equal
    /// factors joined.
    fn other_lists(&mut self, returns: &[(u16, u16)]) -> [(&'static str, Vec<(u16, u16)>); 5] {
        let mut rising = returns.to_vec();
        rising.sort_unstable();
        let falling = rising.iter().rev().copied().collect();
        let mut split = rising.clone();
        if let Some(place) = split
            .iter()
            .position(|r| r.1 > 1)
            .filter(|_| split.len() < 64)
        {
            let (factor, weight) = split[place];
            let part = 1 + self.upto(u64::from(weight) - 2) as u16;
            split[place].1 = weight - part;
            split.push((factor, part));
        }
        let mut joined: BTreeMap<u16, u16> = BTreeMap::new();
        for (factor, weight) in returns {
            *joined.entry(*factor).or_default() += weight;
        }
        let joined: Vec<(u16, u16)> = joined.into_iter().collect();
        [
            ("rising", rising),
            ("falling", falling),
            ("shuffled", self.shuffled(returns)),
            ("split", self.shuffled(&split)),
            ("joined", self.shuffled(&joined)),
        ]
    }

    /// Accepted death rates, one per period.
    fn rates(&mut self, dates: u16) -> Vec<u16> {
        let most = [0, 500, 10_000][self.upto(2) as usize];
        let rate = |draw: &mut Draw| match draw.upto(9) {
            0 => [1, 9_999, 10_000][draw.upto(2) as usize],
            _ => draw.upto(most) as u16,
        };
        (0..dates).map(|_| rate(self)).collect()
    }
}

/// The amounts open in a state, smallest first: 0 static, 1 mixed, 2 dynamic.
fn open(terms: &Terms, behaviour: usize, w: u64, a: u64) -> Vec<u64> {
    let m = terms.m(a);
    match behaviour {
        0 => vec![m],
        1 if w > m => vec![m, w],
        1 => vec![m],
        _ => (0..=w.max(m)).collect(),
    }
}

/// The answer of a valuation, and what it leaves in the working slice and the table.
type Run = (gmwb::Valued, Vec<u64>, Vec<u16>);

/// A contract from each of its dates on, the last first, so that the values of date 1 run
/// through those of every date. The amounts are those in the whole contract's table. Counts
/// for each way to mistake payment at death whether it gives another value.
fn random_contract(t: &mut Tally, draw: &mut Draw, k: u64, apart: &mut [u64]) {
    let (terms, returns) = (draw.terms(), draw.returns());
    let rates = draw.rates(terms.dates);
    let whole = [0, 1, 2].map(|b| valued_with(&terms, &returns, &rates, b));
    let mut next: Vec<Vec<u64>> = Vec::new();
    for date in (1..=u64::from(terms.dates)).rev() {
        let name = format!("random contract {k}: {terms:?} {returns:?} {rates:?}, date {date}");
        let later = terms.from_date(date);
        // The period before a date is the first of the contract from it on.
        let lists = (&returns[..], &rates[date as usize - 1..]);
        let runs = [0, 1, 2].map(|b| valued_with(&later, lists.0, lists.1, b));
        ordered(t, &name, &later, &runs);
        at_start(t, &name, &later, lists, &runs);
        supplied_back(t, &name, &later, lists, &runs);
        same_with_map(t, &name, &later, lists, &runs);
        same_without_table(t, &name, &later, lists, &runs);
        for (behaviour, next) in next.iter().enumerate() {
            let layer = (date as usize - 1) * terms.layer();
            let left = (&runs[behaviour].1[..], &whole[behaviour].2[layer..]);
            let lists = (&returns[..], &rates[..]);
            one_step(t, &name, &terms, lists, (date, behaviour), next, left);
        }
        next = runs.into_iter().map(|(_, work, _)| work).collect();
    }
    let (name, lists) = (format!("random contract {k}"), (&returns[..], &rates[..]));
    without_step(t, &name, &terms, lists, &whole);
    beside_dropped(t, &name, &terms, lists);
    zero_rates(t, &name, &terms, &returns);
    dead_at_once(t, &name, &terms, lists);
    beside_mistaken(t, &name, &terms, lists, &whole, apart);
}

/// Returns and death rates.
type Lists<'a> = (&'a [(u16, u16)], &'a [u16]);

/// Each table, supplied back, gets the answer of the valuation that left it.
fn supplied_back(t: &mut Tally, name: &str, terms: &Terms, lists: Lists, runs: &[Run; 3]) {
    for (answer, work, table) in runs {
        let mut again = filled_64(work.len());
        let (record, list, rates) = (terms.record(), list(lists.0), rate_list(lists.1));
        let supplied = gmwb::value_table(&record, &list, &rates, &mut again, table);
        t.same(&format!("{name}: supplied table"), supplied, *answer);
        t.same(&format!("{name}: supplied table, work"), &again, work);
    }
}

/// With a map each valuation answers and leaves the same. Every bit is read back, and the
/// count is that of the bits.
fn same_with_map(t: &mut Tally, name: &str, terms: &Terms, lists: Lists, runs: &[Run; 3]) {
    for (behaviour, run) in runs.iter().enumerate() {
        let words = run.2.len().div_ceil(64);
        let (answer, again, map) = mapped_with(terms, lists.0, lists.1, behaviour as u64, words);
        t.same(&format!("{name}: with a map"), &again, run);
        let dates = 1..usize::from(terms.dates);
        let states = dates.flat_map(|_| terms.states());
        let surrendered =
            |((w, a), amount): ((u64, u64), &u16)| w == u64::from(*amount) && w > terms.m(a);
        let expected: Vec<bool> = states.zip(&run.2).map(surrendered).collect();
        let bits = (0..64 * words).map(|e| map[e / 64] >> (e % 64) & 1 == 1);
        let mut bits: Vec<bool> = bits.collect();
        let unused = bits.split_off(expected.len());
        t.same(&format!("{name}: map"), &bits, &expected);
        t.same(
            &format!("{name}: unused bits"),
            unused.contains(&true),
            false,
        );
        let ones = bits.iter().filter(|bit| **bit).count();
        t.same(&format!("{name}: count"), answer.count, ones as u64);
    }
}

/// Without the step the value is no higher. It is the same for static, and for all where
/// there is no decision after date 1.
fn without_step(t: &mut Tally, name: &str, terms: &Terms, lists: Lists, runs: &[Run; 3]) {
    let same_rate = Terms { step: 0, ..*terms };
    for (behaviour, (stepped, _, _)) in runs.iter().enumerate() {
        let (answer, _, _) = valued_with(&same_rate, lists.0, lists.1, behaviour as u64);
        let expected = if behaviour == 0 || terms.dates <= 2 {
            answer.value
        } else {
            answer.value.max(stepped.value)
        };
        t.same(&format!("{name}: step"), stepped.value, expected);
    }
}

/// Static is at most mixed, mixed at most dynamic, in every state and at the start.
fn ordered(t: &mut Tally, name: &str, terms: &Terms, runs: &[Run; 3]) {
    let [fixed, mixed, free] = runs;
    for (w, a) in terms.states() {
        let place = terms.entry(w, a);
        let rising = fixed.1[place] <= mixed.1[place] && mixed.1[place] <= free.1[place];
        t.same(&format!("{name}: order at ({w}, {a})"), rising, true);
    }
    let rising = fixed.0.value <= mixed.0.value && mixed.0.value <= free.0.value;
    t.same(&format!("{name}: order at the start"), rising, true);
}

/// Where a return leads in a period: to an account and the guarantee, with an excess over top,
/// and the value of the state there.
struct Arrival {
    period: usize,
    account: u64,
    guarantee: u64,
    excess: u64,
    value: u64,
}

impl Arrival {
    /// "A value reached above top is the value at top plus 10,000 × the excess".
    fn alive(&self) -> u64 {
        self.value + 10_000 * self.excess
    }

    fn payment(&self) -> u64 {
        10_000 * (self.account.max(self.guarantee) + self.excess)
    }
}

/// What becomes of a value reached, times 10,000, not yet rounded: living at the complement of
/// the rate, paid at the rate.
fn mixed_at(rate: u16, alive: u64, payment: u64) -> u128 {
    let rate = u128::from(rate);
    (10_000 - rate) * u128::from(alive) + rate * u128::from(payment)
}

/// Rounded down, as a value is.
fn whole_value(mixed: u128) -> u128 {
    mixed / 10_000 * 10_000
}

/// The same by the rules.
fn reached_at(rates: &[u16], at: &Arrival) -> u128 {
    whole_value(mixed_at(rates[at.period], at.alive(), at.payment()))
}

/// A way to take the discounted sum over the returns of a period from a balance and a guarantee;
/// the last function says what is made of each arrival, times 10,000.
type Sum = fn(&Terms, &[(u16, u16)], (usize, &[u64]), (u64, u64), &dyn Fn(&Arrival) -> u128) -> u64;

/// In the order of the list.
fn discounted(
    terms: &Terms,
    returns: &[(u16, u16)],
    next: (usize, &[u64]),
    (balance, guarantee): (u64, u64),
    reached: &dyn Fn(&Arrival) -> u128,
) -> u64 {
    let led = returns
        .iter()
        .map(|(factor, weight)| (terms.reached(balance, *factor), u64::from(*weight)));
    discounted_over(terms, led, next, guarantee, reached)
}

/// "Weights of returns that reach the same account and the same excess shall be added first, and
/// the products summed account by account from the lowest, then by excess."
fn discounted_by_account(
    terms: &Terms,
    returns: &[(u16, u16)],
    next: (usize, &[u64]),
    (balance, guarantee): (u64, u64),
    reached: &dyn Fn(&Arrival) -> u128,
) -> u64 {
    let groups = groups(terms, returns, balance);
    discounted_over(terms, groups.into_iter(), next, guarantee, reached)
}

/// The weights by account and excess.
fn groups(terms: &Terms, returns: &[(u16, u16)], balance: u64) -> BTreeMap<(u64, u64), u64> {
    let mut groups = BTreeMap::new();
    for (factor, weight) in returns {
        let group = groups.entry(terms.reached(balance, *factor));
        *group.or_default() += u64::from(*weight);
    }
    groups
}

/// Over accounts with their excess, each with its weight.
fn discounted_over(
    terms: &Terms,
    led: impl Iterator<Item = ((u64, u64), u64)>,
    (period, next): (usize, &[u64]),
    guarantee: u64,
    reached: &dyn Fn(&Arrival) -> u128,
) -> u64 {
    let mut sum = 0;
    for ((account, excess), weight) in led {
        let arrival = Arrival {
            period,
            account,
            guarantee,
            excess,
            value: next[terms.entry(account, guarantee)],
        };
        sum += u128::from(weight) * reached(&arrival);
    }
    (u128::from(terms.discount) * sum / 100_000_000_000_000) as u64
}

/// The value of a contract is that of the first return, and no value passes what dates and top
/// allow.
fn at_start(t: &mut Tally, name: &str, terms: &Terms, lists: Lists, runs: &[Run; 3]) {
    let (premium, dates) = (u64::from(terms.premium), u64::from(terms.dates));
    let (returns, rates) = lists;
    for (answer, work, _) in runs {
        let reached = |at: &Arrival| reached_at(rates, at);
        let value = discounted(terms, returns, (0, work), (premium, premium), &reached);
        t.same(&format!("{name}: value"), answer.value, value);
        let within = work.iter().all(|v| *v <= terms.tops(2 * dates - 1));
        t.same(&format!("{name}: most of a state"), within, true);
        let within = answer.value <= terms.tops(2 * dates + 1);
        t.same(&format!("{name}: most of a contract"), within, true);
    }
}

/// Value, values of date 1 and amounts of a contract, `reached` being what is made of each
/// arrival, times 10,000.
fn valued_by(
    terms: &Terms,
    returns: &[(u16, u16)],
    behaviour: usize,
    reached: &dyn Fn(&Arrival) -> u128,
) -> (u64, Vec<u64>, Vec<u16>) {
    valued_summed(terms, returns, behaviour, discounted, reached)
}

/// The same, the sums taken by `sum`.
fn valued_summed(
    terms: &Terms,
    returns: &[(u16, u16)],
    behaviour: usize,
    sum: Sum,
    reached: &dyn Fn(&Arrival) -> u128,
) -> (u64, Vec<u64>, Vec<u16>) {
    let states = terms.states();
    let mut values: Vec<u64> = states.iter().map(|(w, a)| 10_000 * w.max(a)).collect();
    let mut table = Vec::new();
    for date in (1..terms.dates).rev() {
        let best = |(w, a): &(u64, u64)| {
            let worth = |amount: &u64| {
                let figures = terms.figures(date.into(), *w, *a, *amount);
                let [cash, _, balance, guarantee] = figures;
                let (next, from) = ((date.into(), &values[..]), (balance, guarantee));
                cash + sum(terms, returns, next, from, reached)
            };
            // The last of the largest, so the smallest amount where they go downwards.
            let amounts = open(terms, behaviour, *w, *a).into_iter().rev();
            let best = amounts.max_by_key(worth).unwrap_or(0);
            (worth(&best), best as u16)
        };
        let (best, amounts): (Vec<u64>, Vec<u16>) = states.iter().map(best).unzip();
        values = best;
        table.splice(0..0, amounts);
    }
    let premium = u64::from(terms.premium);
    let value = sum(terms, returns, (0, &values), (premium, premium), reached);
    (value, values, table)
}

/// Where no return lifts a balance above top, all is as if an excess were dropped; where one
/// does, no value is lower. Without factors above 10,000 none does.
fn beside_dropped(t: &mut Tally, name: &str, terms: &Terms, (returns, rates): Lists) {
    let falling: Vec<(u16, u16)> = returns.iter().map(|(f, w)| (10_000.min(*f), *w)).collect();
    t.same(&format!("{name}: no lift"), terms.lifts(&falling), false);
    let dropped = |at: &Arrival| reached_at(rates, &Arrival { excess: 0, ..*at });
    for (returns, behaviour) in [returns, &falling]
        .into_iter()
        .flat_map(|r| [(r, 0), (r, 1), (r, 2)])
    {
        let (answer, work, table) = valued_with(terms, returns, rates, behaviour as u64);
        let (value, values, amounts) = valued_by(terms, returns, behaviour, &dropped);
        let (first, second) = work.split_at(terms.layer());
        let name = format!("{name}: beside dropped, behaviour {behaviour}");
        t.same(&name, second.iter().all(|v| *v == 0), true);
        if terms.lifts(returns) {
            let higher = first.iter().zip(&values).all(|(v, d)| v >= d) && answer.value >= value;
            t.same(&format!("{name}: no lower"), higher, true);
        } else {
            let got = (answer.value, first, &table);
            t.same(
                &format!("{name}: the same"),
                got,
                (value, &values[..], &amounts),
            );
        }
    }
}

/// "Zero rates .. give the earlier values": those of a contract that knows no death.
fn zero_rates(t: &mut Tally, name: &str, terms: &Terms, returns: &[(u16, u16)]) {
    for behaviour in 0..3 {
        let (answer, work, table) = valued(terms, returns, behaviour as u64);
        let deathless = |at: &Arrival| 10_000 * u128::from(at.alive());
        let (value, values, amounts) = valued_by(terms, returns, behaviour, &deathless);
        let name = format!("{name}: zero rates, behaviour {behaviour}");
        let got = (answer.value, &work[..terms.layer()], &table);
        t.same(&name, got, (value, &values[..], &amounts));
    }
}

/// With a first rate of 10,000 every behaviour has the discounted mean of the death payments.
fn dead_at_once(t: &mut Tally, name: &str, terms: &Terms, (returns, rates): Lists) {
    let mut rates = rates.to_vec();
    rates[0] = 10_000;
    let premium = u64::from(terms.premium);
    let paid = |(factor, weight): &(u16, u16)| {
        let (account, excess) = terms.reached(premium, *factor);
        u64::from(*weight) * (account.max(premium) + excess)
    };
    let sum: u64 = returns.iter().map(paid).sum();
    let mean = u64::from(terms.discount) * sum / 1_000_000;
    let got = values_with(terms, returns, &rates);
    t.same(&format!("{name}: dead at once"), got, [mean; 3]);
}

/// Ways to mistake payment at death: what is made of an arrival, times 10,000, and in words.
type Mistaken = (fn(&[u16], &Arrival) -> u128, &'static str);

const MISTAKEN: [Mistaken; 8] = [
    (a_period_late, "the rates a period late"),
    (a_period_early, "the rates a period early"),
    (first_without, "no rate on the first return"),
    (guarantee_alone, "the guarantee alone paid at death"),
    (account_alone, "the account alone paid at death"),
    (rounded_later, "death rounded after the weights"),
    (without_excess, "no excess paid at death"),
    (exchanged, "rate and complement exchanged"),
];

fn a_period_late(rates: &[u16], at: &Arrival) -> u128 {
    let rate = if at.period == 0 {
        0
    } else {
        rates[at.period - 1]
    };
    whole_value(mixed_at(rate, at.alive(), at.payment()))
}

fn a_period_early(rates: &[u16], at: &Arrival) -> u128 {
    let rate = *rates.get(at.period + 1).unwrap_or(&0);
    whole_value(mixed_at(rate, at.alive(), at.payment()))
}

fn first_without(rates: &[u16], at: &Arrival) -> u128 {
    let rate = if at.period == 0 { 0 } else { rates[at.period] };
    whole_value(mixed_at(rate, at.alive(), at.payment()))
}

fn guarantee_alone(rates: &[u16], at: &Arrival) -> u128 {
    let payment = 10_000 * (at.guarantee + at.excess);
    whole_value(mixed_at(rates[at.period], at.alive(), payment))
}

fn account_alone(rates: &[u16], at: &Arrival) -> u128 {
    let payment = 10_000 * (at.account + at.excess);
    whole_value(mixed_at(rates[at.period], at.alive(), payment))
}

fn rounded_later(rates: &[u16], at: &Arrival) -> u128 {
    mixed_at(rates[at.period], at.alive(), at.payment())
}

fn without_excess(rates: &[u16], at: &Arrival) -> u128 {
    let payment = 10_000 * at.account.max(at.guarantee);
    whole_value(mixed_at(rates[at.period], at.alive(), payment))
}

fn exchanged(rates: &[u16], at: &Arrival) -> u128 {
    let rate = 10_000 - rates[at.period];
    whole_value(mixed_at(rate, at.alive(), at.payment()))
}

/// The rules as they stand give the answers; each way to mistake them is counted where it gives
/// another value.
fn beside_mistaken(
    t: &mut Tally,
    name: &str,
    terms: &Terms,
    (returns, rates): Lists,
    runs: &[Run; 3],
    apart: &mut [u64],
) {
    for (behaviour, (answer, work, table)) in runs.iter().enumerate() {
        let ruled = |at: &Arrival| reached_at(rates, at);
        let (value, values, amounts) = valued_by(terms, returns, behaviour, &ruled);
        let got = (answer.value, &work[..terms.layer()], table);
        t.same(
            &format!("{name}: by the rules"),
            got,
            (value, &values[..], &amounts),
        );
        for ((reached, _), apart) in MISTAKEN.iter().zip(&mut *apart) {
            let mistaken = |at: &Arrival| reached(rates, at);
            let other = valued_by(terms, returns, behaviour, &mistaken).0;
            *apart += u64::from(other != value);
        }
    }
}

/// A rule that names an amount from the numbers of the returns so far. "A strategy chooses only
/// while the holder lives".
struct Strategy<'a> {
    terms: &'a Terms,
    lists: Lists<'a>,
    behaviour: usize,
    /// The amount for each list of return numbers, shorter lists first.
    amounts: &'a [u64],
}

impl Strategy<'_> {
    /// What it earns over a period from a balance and a guarantee; none where it names an amount
    /// that is not open. `place` is that of the list so far among those of its length.
    fn over_period(&self, period: u16, place: usize, from: (u64, u64)) -> Option<u64> {
        let (returns, rates) = self.lists;
        let mut sum = 0;
        for (number, (factor, weight)) in returns.iter().enumerate() {
            let (account, excess) = self.terms.reached(from.0, *factor);
            let place = place * returns.len() + number;
            let arrival = Arrival {
                period: period.into(),
                account,
                guarantee: from.1,
                excess,
                value: self.on_date(period + 1, place, (account, from.1))?,
            };
            sum += u128::from(*weight) * reached_at(rates, &arrival);
        }
        Some((u128::from(self.terms.discount) * sum / 100_000_000_000_000) as u64)
    }

    fn on_date(&self, date: u16, place: usize, (w, a): (u64, u64)) -> Option<u64> {
        if date == self.terms.dates {
            return Some(10_000 * w.max(a));
        }
        let count = self.lists.0.len();
        let shorter: usize = (1..date).map(|length| count.pow(length.into())).sum();
        let amount = self.amounts[shorter + place];
        if !open(self.terms, self.behaviour, w, a).contains(&amount) {
            return None;
        }
        let [cash, _, balance, guarantee] = self.terms.figures(date.into(), w, a, amount);
        let later = self.over_period(date, place, (balance, guarantee))?;
        Some(cash + later)
    }
}

/// Every strategy of a contract under a top of at most 3 with two returns and at most two
/// decision dates: under each behaviour none earns more than the value, and some as much.
fn every_strategy(t: &mut Tally, draw: &mut Draw, k: u64) {
    let top = 2 + draw.upto(1);
    let terms = draw.under(top as u16, 2 + (k % 2) as u16);
    let weight = 1 + draw.upto(9_998) as u16;
    let returns = [
        (draw.upto(12_000) as u16, weight),
        (10_000 + draw.upto(20_000) as u16, 10_000 - weight),
    ];
    let rates = draw.rates(terms.dates);
    let places = if terms.dates == 2 { 2 } else { 6 };
    let choices = top + 1;
    let strategies = (0..choices.pow(places)).map(|s| {
        let amount = |place: u32| s / choices.pow(place) % choices;
        (0..places).map(amount).collect::<Vec<u64>>()
    });
    let mut most = [None; 3];
    for amounts in strategies {
        for (behaviour, most) in most.iter_mut().enumerate() {
            let strategy = Strategy {
                terms: &terms,
                lists: (&returns, &rates),
                behaviour,
                amounts: &amounts,
            };
            let premium = u64::from(terms.premium);
            let earned = strategy.over_period(0, 0, (premium, premium));
            *most = earned.max(*most);
        }
    }
    let got = values_with(&terms, &returns, &rates).map(Some);
    let name = format!("every strategy {k}: {terms:?} {returns:?} {rates:?}");
    t.same(&name, got, most);
}

/// Value and amount of each state of a date, from bookings and the values of the next
/// date.
fn one_step(
    t: &mut Tally,
    name: &str,
    terms: &Terms,
    (returns, rates): Lists,
    (date, behaviour): (u64, usize),
    next: &[u64],
    left: (&[u64], &[u16]),
) {
    let reached = |at: &Arrival| reached_at(rates, at);
    for (w, a) in terms.states() {
        let mut best = (0, 0);
        for (index, amount) in open(terms, behaviour, w, a).into_iter().enumerate() {
            let booking = booked(terms, date, w, a, amount);
            let figures = (0, 0, terms.figures(date, w, a, amount));
            t.same(&format!("{name}: booking"), booking, figures);
            let [cash, _, balance, guarantee] = booking.2;
            let (next, from) = ((date as usize, next), (balance, guarantee));
            let worth = cash + discounted(terms, returns, next, from, &reached);
            if index == 0 || worth > best.0 {
                best = (worth, amount);
            }
        }
        let place = terms.entry(w, a);
        let got = (left.0[place], u64::from(left.1[place]));
        t.same(&format!("{name}: state ({w}, {a})"), got, best);
    }
}

/// A walk along a random table and path. On even turns no amount passes m. Gives whether there
/// was an excess on it.
fn random_walk(t: &mut Tally, draw: &mut Draw, k: u64) -> bool {
    let (terms, returns) = (draw.terms(), draw.returns());
    let within_m = k % 2 == 0;
    let mut table: Vec<u16> = Vec::new();
    for _ in 1..terms.dates {
        for (w, a) in terms.states() {
            let m = terms.m(a);
            let most = if within_m { m } else { w.max(m) };
            table.push(draw.upto(most) as u16);
        }
    }
    let last = returns.len() as u64 - 1;
    let numbers: Vec<u16> = (0..terms.dates).map(|_| draw.upto(last) as u16).collect();
    let mut cash = vec![0; usize::from(terms.dates)];
    let (record, list) = (terms.record(), list(&returns));
    let answer = gmwb::walk(&record, &list, &table, &numbers, &mut cash);
    let name = format!("random walk {k}: {terms:?}");
    t.same(&name, (answer.number, answer.place), (0, 0));
    let factors: Vec<u16> = numbers.iter().map(|n| returns[usize::from(*n)].0).collect();
    follow(t, &name, &terms, &table, &factors, &cash, within_m) > 0
}

/// The same walk, booking by booking. "While no amount on a walk passes m, amounts
/// withdrawn so far plus the guarantee equal the premium." "An excess is no withdrawal where
/// amounts withdrawn are summed." Gives the excess of the whole walk.
fn follow(
    t: &mut Tally,
    name: &str,
    terms: &Terms,
    table: &[u16],
    factors: &[u16],
    cash: &[u64],
    within_m: bool,
) -> u64 {
    let premium = u64::from(terms.premium);
    let (mut balance, mut guarantee) = (premium, premium);
    let (mut drawn, mut penalties, mut lifted, mut at_maturity) = (0, 0, 0, 0);
    for (i, factor) in factors.iter().enumerate() {
        let date = i as u64 + 1;
        let (account, excess) = terms.reached(balance, *factor);
        lifted += excess;
        let paid = if date == u64::from(terms.dates) {
            at_maturity = 10_000 * account.max(guarantee);
            at_maturity
        } else {
            let place = i * terms.layer() + terms.entry(account, guarantee);
            let amount = u64::from(table[place]);
            let (_, _, figures) = booked(terms, date, account, guarantee, amount);
            balance = figures[2];
            guarantee = figures[3];
            drawn += amount;
            penalties += figures[1];
            figures[0]
        };
        t.same(&format!("{name}: cash"), cash[i], paid + 10_000 * excess);
        if within_m {
            t.same(&format!("{name}: conservation"), drawn + guarantee, premium);
        }
    }
    let paid = 10_000 * (drawn + lifted) + at_maturity - penalties;
    t.same(&format!("{name}: paid in all"), cash.iter().sum(), paid);
    lifted
}

/// A step has to be given; spare bytes are zero where they are not.
fn text_fields(t: &mut Tally) {
    let text = include_str!("example-p.txt");
    let packed = text::pack(&text.replace("step 0\n", ""));
    t.same("no step", packed, Err("step is not given".into()));
    for (line, spare) in [("", 0), ("spare 0\n", 0), ("spare 258\n", 258)] {
        let record = Terms { spare, ..P }.record();
        let packed = text::pack(&format!("{text}{line}"));
        let expected = [record, list(&P_RETURNS), vec![0; 4]];
        t.same("spare bytes", packed, Ok(expected));
    }
    let shown = text::show(&P.record(), &list(&P_RETURNS), &[0; 4]);
    t.same("example-p.txt shown", shown, Ok(text.into()));
}

/// Rates may be left out and given once, each in 2 bytes.
fn text_rates(t: &mut Tally) {
    let text = include_str!("example-p.txt").replace("rates 0 0\n", "");
    for (line, rates) in [
        ("", Some(vec![])),
        ("rates 1\n", Some(vec![1, 0])),
        (
            "rates 258 65535 10000\n",
            Some(vec![2, 1, 255, 255, 16, 39]),
        ),
        ("rates\n", None),
        ("rates 1  2\n", Some(vec![1, 0, 2, 0])),
        ("rates 1 65536\n", None),
        ("rates 1\nrates 2\n", None),
    ] {
        let packed = text::pack(&format!("{text}{line}")).ok();
        let expected = rates.map(|rates| [P.record(), list(&P_RETURNS), rates]);
        t.same(&format!("text with {line:?}"), packed, expected);
    }
    let shown = text::show(&P.record(), &list(&P_RETURNS), &[0; 3]);
    t.same("half a rate shown", shown.is_err(), true);
}

/// Tabs, spaces, comments and commas as a person writes them; an error names its line.
fn text_as_written(t: &mut Tally) {
    let text = include_str!("example-p.txt");
    let plain = text::pack(text);
    let tabbed = text.replace(' ', "\t").replace('\n', " \t# words\r\n");
    t.same("tabs and comments", text::pack(&tabbed), plain.clone());
    let spaced = text.replace(' ', "   ").replace('\n', "\n\n  # 7\n ");
    t.same("spaces and blank lines", text::pack(&spaced), plain.clone());
    let grouped = text
        .replace("1000000", "1,000,000")
        .replace("5000", "5,000");
    t.same("commas", text::pack(&grouped), plain.clone());
    for wrong in ["2,0", ",020", "1,000,00", "1000,000", "1,00x", "-1", "2.0"] {
        let packed = text::pack(&text.replace("top 20", &format!("top {wrong}")));
        let expected = format!("line 3: '{wrong}' is not a figure such as 1000 or 1,000");
        t.same("no figure", packed, Err(expected));
    }
    for (old, new, expected) in [
        (
            "top 20",
            "top 65,536",
            "line 3: top 65536 does not fit in 2 bytes",
        ),
        (
            "top 20",
            "top 20 # once\ntop 20",
            "line 4: top is given twice",
        ),
        ("top 20", "ceiling 20", "line 3: no such field: ceiling"),
        ("top 20", "top # 20", "line 3: not understood: top"),
        ("top 20", "top 20 30", "line 3: not understood: top 20 30"),
        (
            "return 15000 5000",
            "return 15000",
            "line 10: a return has a factor and a weight",
        ),
        ("rates 0 0", "rates # 0", "line 11: no rate is given"),
        (
            "rates 0 0",
            "rates 0\nrates 0",
            "line 12: rates are given twice",
        ),
        ("top 20", "# top 20", "top is not given"),
    ] {
        let packed = text::pack(&text.replace(old, new));
        t.same(&format!("text with {new:?}"), packed, Err(expected.into()));
    }
}

/// Any record, list and rates in words, and back.
fn random_text(t: &mut Tally, draw: &mut Draw) {
    let mut record: Vec<u8> = (0..20).map(|_| draw.upto(255) as u8).collect();
    if draw.upto(1) == 0 {
        record[18..].fill(0);
    }
    let length = 4 * draw.upto(70);
    let list: Vec<u8> = (0..length).map(|_| draw.upto(255) as u8).collect();
    let length = 2 * draw.upto(45);
    let rates: Vec<u8> = (0..length).map(|_| draw.upto(255) as u8).collect();
    let back = text::show(&record, &list, &rates).and_then(|words| text::pack(&words));
    t.same("show, then pack", back, Ok([record, list, rates]));
}

/// Any bytes, lengths and numbers: each call comes back, and a refusal changes nothing.
fn random_bytes(t: &mut Tally, draw: &mut Draw) {
    let mut call = good(&draw.terms(), &draw.returns());
    for _ in 0..draw.upto(2) {
        let place = draw.upto(19) as usize;
        call.record[place] = draw.upto(255) as u8;
        let place = draw.upto(call.list.len() as u64 - 1) as usize;
        call.list[place] = draw.upto(255) as u8;
    }
    if draw.upto(2) == 0 {
        call.rates = (0..draw.upto(9)).map(|_| draw.upto(255) as u8).collect();
    }
    call.behaviour = draw.upto(3);
    call.work = draw.upto(300) as usize;
    call.table = (0..draw.upto(400)).map(|_| draw.upto(6) as u16).collect();
    call.numbers = (0..draw.upto(5)).map(|_| draw.upto(4) as u16).collect();
    call.cash = draw.upto(5) as usize;
    call.date = draw.upto(5);
    call.account = draw.upto(12);
    call.guarantee = draw.upto(12);
    call.amount = draw.upto(12);
    t.refusals_change_nothing("random call", &call);
}
