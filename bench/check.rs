//! `check`: all programs against the plain one on random small contracts, with ties frequent,
//! many with returns that lift accounts above top, most with death rates, some spoilt so that they
//! are refused; without a map of surrender and with one, the engine also without a table. Engine
//! and tuned search for fees on all of them, the plain program on some small ones. All of it is
//! done again with the returns in another list: shuffled, one of them split in two of its factor
//! or equal factors joined; each program has to leave what it left with the first list.

use crate::inputs::{Input, Return, Terms, DYNAMIC, SPARE};
use crate::programs::{Program, ENGINE, ENGINE_NO_TABLE, ENGINE_FEE, ENGINE_MAP};
use crate::programs::{PLAIN, PLAIN_FEE, PLAIN_MAP, TUNED, TUNED_FEE, TUNED_MAP};

const CONTRACTS: u64 = 600;

/// Random numbers, the same in every run (splitmix64).
struct Draw(u64);

impl Draw {
    fn next(&mut self) -> u64 {
        self.0 = self.0.wrapping_add(0x9E37_79B9_7F4A_7C15);
        let mut z = self.0;
        z = (z ^ (z >> 30)).wrapping_mul(0xBF58_476D_1CE4_E5B9);
        z = (z ^ (z >> 27)).wrapping_mul(0x94D0_49BB_1331_11EB);
        z ^ (z >> 31)
    }

    fn within(&mut self, low: u64, high: u64) -> u64 {
        low + self.next() % (high - low + 1)
    }

    /// One of the figures given, or anything in the range.
    fn one_of(&mut self, figures: &[u64], low: u64, high: u64) -> u64 {
        let k = self.within(0, figures.len() as u64) as usize;
        let any = self.within(low, high);
        *figures.get(k).unwrap_or(&any)
    }
}

/// Without penalty or discount, and with whole factors, many amounts are worth the same.
fn random_terms(draw: &mut Draw, most_top: u64) -> Terms {
    let top = draw.within(1, most_top);
    let premium = draw.one_of(&[top], 1, top);
    Terms {
        premium: premium as u16,
        level: draw.one_of(&[1, premium], 1, premium) as u16,
        top: top as u16,
        dates: draw.within(1, 5) as u16,
        fee: draw.one_of(&[0, 0, 100], 0, 10_000) as u16,
        penalty: draw.one_of(&[0, 0, 500, 10_000], 0, 10_000) as u16,
        discount: draw.one_of(&[1_000_000, 1_000_000, 970_000], 1, 1_000_000) as u32,
        step: draw.one_of(&[0, 0, 100, 250, 10_000], 0, 10_000) as u16,
    }
}

/// Up to 18 returns, so that rows are summed in eights and fours, or more; equal factors stand
/// twice.
fn random_returns(draw: &mut Draw, most: u64) -> Vec<Return> {
    let mut left = 10_000;
    let mut returns = Vec::new();
    for after in (0..draw.within(1, most)).rev() {
        let weight = if after == 0 {
            left
        } else {
            draw.within(1, (left - after).min(2 * left / after))
        };
        left -= weight;
        let last = returns.last().map_or(10_000, |r: &Return| r.0.into());
        let factor = draw.one_of(&[last, 10_000, 5_000, 20_000, 0], 0, 30_000);
        returns.push((factor as u16, weight as u16));
    }
    returns
}

/// The same returns in another list: shuffled, before that one of them split in two or equal
/// factors joined.
fn other_list(draw: &mut Draw, returns: &[Return]) -> Vec<Return> {
    let mut other = returns.to_vec();
    match draw.within(0, 2) {
        0 if other.len() < 64 => {
            let at = draw.within(0, other.len() as u64 - 1) as usize;
            let (factor, weight) = other[at];
            let part = weight / 2;
            if part > 0 {
                other[at].1 -= part;
                other.push((factor, part));
            }
        }
        1 => {
            other.sort_unstable();
            other.dedup_by(|next, held| {
                let equal = next.0 == held.0;
                held.1 += if equal { next.1 } else { 0 };
                equal
            });
        }
        _ => {}
    }
    for last in (1..other.len()).rev() {
        other.swap(last, draw.within(0, last as u64) as usize);
    }
    other
}

/// Zero rates for one contract in eight, death for certain throughout for another.
fn random_rates(draw: &mut Draw, dates: u16) -> Vec<u16> {
    let kind = draw.within(0, 7);
    let mut rate = || match kind {
        0 => 0,
        1 => 10_000,
        _ => draw.one_of(&[0, 1, 100, 500, 9_999, 10_000], 0, 10_000),
    };
    (0..dates).map(|_| rate() as u16).collect()
}

/// Puts the premium near top and lifts most factors.
fn lift(draw: &mut Draw, terms: &mut Terms, returns: &mut [Return]) {
    let (top, premium) = (u64::from(terms.top), u64::from(terms.premium));
    terms.premium = draw.within(premium.max(top - top / 4), top) as u16;
    for (factor, _) in returns {
        *factor = draw.one_of(&[(*factor).into(), 20_000, 30_000], 10_000, 30_000) as u16;
    }
}

/// Changes one thing. Most of the changes are refused.
fn spoil(draw: &mut Draw, input: &mut Input) {
    let byte = draw.next() as u8;
    match draw.within(0, 10) {
        0 => input.behaviour = 3,
        1 => input.work_len -= SPARE + 1,
        2 => input.table_len = input.table_len.saturating_sub(SPARE + 1),
        3 => input.list.truncate(draw.within(0, 3) as usize),
        4 => input.record.truncate(draw.within(0, 19) as usize),
        5 => input.record[draw.within(0, 19) as usize] = byte,
        6 => input.map_len = input.map_len.saturating_sub(SPARE + 1),
        7 => {
            let longer = input.rates.len() as u64 + 3;
            input.rates.resize(draw.within(0, longer) as usize, 0);
        }
        8 | 9 => {
            let last = input.rates.len() as u64 / 2 - 1;
            let at = 2 * draw.within(0, last) as usize;
            let rate = draw.one_of(&[10_001, 65_535], 0, 65_535) as u16;
            input.rates[at..at + 2].copy_from_slice(&rate.to_le_bytes());
        }
        _ => {
            let last = input.list.len() as u64 - 1;
            input.list[draw.within(0, last) as usize] = byte;
        }
    }
}

/// The highest account, the most dates and the largest factor: values near the largest, where
/// discount × sum passes 64 bits.
fn large_values(rate: u16, behaviour: u64) -> Input {
    let terms = Terms {
        premium: 1,
        level: 1,
        top: 4_000,
        dates: 40,
        fee: 0,
        penalty: 0,
        discount: 1_000_000,
        step: 0,
    };
    terms.input(&[(30_000, 10_000)], &[rate; 40], behaviour)
}

/// The plain program, then the others, without a map and with one.
const ALIKE: [[Program; 3]; 2] = [[PLAIN, TUNED, ENGINE], [PLAIN_MAP, TUNED_MAP, ENGINE_MAP]];
const WITHOUT_TABLE: [Program; 2] = [PLAIN, ENGINE_NO_TABLE];
const SEARCHING: [Program; 3] = [PLAIN_FEE, TUNED_FEE, ENGINE_FEE];

/// The ends of 64 bits, of them as a signed number, and around the value at some fee.
fn some_wanted(draw: &mut Draw, input: &Input) -> [u64; 7] {
    let fee = draw.one_of(&[0, 1, 9_999, 10_000], 0, 10_000);
    let value = TUNED.run(&input.at_fee(fee as u16)).0.told.value;
    let signed = i64::MAX as u64;
    [
        0,
        value.saturating_sub(1),
        value,
        value + 1,
        signed,
        signed + 1,
        u64::MAX,
    ]
}

/// How many comparisons there were, by the answer.
#[derive(Default)]
struct Count {
    accepted: u64,
    refused: u64,
    differing: u64,
}

impl Count {
    fn compare(&mut self, name: &str, input: &Input, programs: &[Program]) {
        let (number, equal) = agree(name, input, programs);
        self.accepted += u64::from(number == 0);
        self.refused += u64::from(number != 0);
        self.differing += u64::from(!equal);
    }

    /// Each program with itself, its returns in two lists.
    fn compare_lists(&mut self, name: &str, inputs: [&Input; 2], programs: &[Program]) {
        for program in programs {
            let [one, other] = inputs.map(|input| program.run(input).0);
            let difference = other.difference(&one);
            if let Some(what) = &difference {
                eprintln!("differ: {name}: {} by list: {what}", program.name);
            }
            self.accepted += u64::from(one.told.number == 0);
            self.refused += u64::from(one.told.number != 0);
            self.differing += u64::from(difference.is_some());
        }
    }
}

#[derive(Default)]
struct Counts {
    valued: Count,
    without_table: Count,
    found: Count,
    by_list: Count,
}

impl Counts {
    fn compare_valuing(&mut self, name: &str, input: &Input) {
        for programs in ALIKE {
            self.valued.compare(name, input, &programs);
        }
    }

    fn compare_searching(&mut self, name: &str, input: &Input, all: &[u64], programs: &[Program]) {
        for wanted in all {
            let input = Input {
                wanted: *wanted,
                ..input.clone()
            };
            let name = format!("{name}, wanted {wanted}");
            self.found.compare(&name, &input, programs);
        }
    }

    /// Prints the counts and gives whether all programs agree.
    fn tell(&self) -> bool {
        let counts = [
            ("valued", &self.valued),
            ("valued without a table", &self.without_table),
            ("fees found", &self.found),
            ("alike by two lists", &self.by_list),
        ];
        for (what, count) in counts {
            let (refused, differing) = (count.refused, count.differing);
            println!(
                "check: {} {what}, {refused} refused, {differing} differ",
                count.accepted
            );
        }
        counts.iter().all(|(_, count)| count.differing == 0)
    }
}

/// Gives the number told, and whether the other programs agree with the first one.
fn agree(name: &str, input: &Input, programs: &[Program]) -> (u64, bool) {
    let (first, others) = (programs[0], &programs[1..]);
    let (outcome, _) = first.run(input);
    let differs = |program: &Program| {
        let difference = program.run(input).0.difference(&outcome);
        if let Some(what) = &difference {
            eprintln!(
                "differ: {name}: {} from {}: {what}",
                program.name, first.name
            );
        }
        difference.is_some()
    };
    let differing = others.iter().filter(|p| differs(p)).count();
    (outcome.told.number, differing == 0)
}

/// Makes all comparisons, prints how many and gives whether all programs agree.
pub fn run() -> bool {
    let mut draw = Draw(20_240_601);
    let mut counts = Counts::default();
    for k in 0..CONTRACTS {
        // Plain tries fees in order, so it searches few contracts, and small ones.
        let (most_top, searching) = match k % 10 {
            0 => (60, &SEARCHING[1..]),
            5 => (5, &SEARCHING[..]),
            _ => (16, &SEARCHING[1..]),
        };
        let mut terms = random_terms(&mut draw, most_top);
        let most_returns = if k % 10 == 1 { 64 } else { 18 };
        let mut returns = random_returns(&mut draw, most_returns);
        if k % 3 == 0 {
            lift(&mut draw, &mut terms, &mut returns);
        }
        let rates = random_rates(&mut draw, terms.dates);
        let other_returns = other_list(&mut draw, &returns);
        for behaviour in 0..=DYNAMIC {
            let input = terms.input(&returns, &rates, behaviour);
            let other = terms.input(&other_returns, &rates, behaviour);
            let wanted = some_wanted(&mut draw, &input);
            let mut spoilt = input.clone();
            spoil(&mut draw, &mut spoilt);
            let name = format!("contract {k}, behaviour {behaviour}");
            let table_len = input.table_len;
            let lists = [&input, &other];
            for programs in ALIKE {
                counts.by_list.compare_lists(&name, lists, &programs);
            }
            let no_table = [ENGINE_NO_TABLE];
            counts.by_list.compare_lists(&name, lists, &no_table);
            let [one, two] = lists.map(|input| Input {
                wanted: wanted[2],
                ..input.clone()
            });
            let searches = &SEARCHING[1..];
            counts.by_list.compare_lists(&name, [&one, &two], searches);
            for (name, input, searching) in [
                (name.clone(), input, searching),
                (format!("spoilt {name}"), spoilt, searching),
                (format!("other list of {name}"), other, searches),
            ] {
                counts.compare_valuing(&name, &input);
                counts.compare_searching(&name, &input, &wanted, searching);
                // Only plain would refuse a table that is too short.
                let lent = Input { table_len, ..input };
                counts.without_table.compare(&name, &lent, &WITHOUT_TABLE);
            }
        }
    }
    for (rate, behaviour) in [(0, 0), (0, 1), (0, DYNAMIC), (1, 0), (1, 1), (1, DYNAMIC)] {
        let name = format!("large values, rates {rate}, behaviour {behaviour}");
        let input = large_values(rate, behaviour);
        let wanted = some_wanted(&mut draw, &input);
        counts.compare_valuing(&name, &input);
        counts.compare_searching(&name, &input, &wanted, &SEARCHING[1..]);
    }
    counts.tell()
}
