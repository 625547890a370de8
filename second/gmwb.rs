//! GMWB valuation: the rules of document 01 (01-scope.md), with requests (i) to (vii)
//! of document 02 (02-change-requests.md), written plainly.
//! Two operations are no document's own but follow from their sentences: the sizes of the lent
//! slices, and valuing without a table. Hosts ask for both.
//!
//! The parts follow document 01: units and records, one date, values, lent
//! slices, the operations, the program. Each function names the sentence it
//! stands for. Every sum over the returns is made anew for each amount.
//!
//! The rules of the parts "One date" and "Values" are called only with what the
//! checks have let through: account up to top, guarantee up to premium, amount in
//! the dynamic set. Under those limits no number below passes 64 bits but a product
//! at `discounted`, which has 128.

// A program that takes this file in as a module may use only a part of it.
#![allow(dead_code)]

// ---------------------------------------------------------------- Answers

/// "Returned: number, place". Success gives number 0, place 0.
#[derive(Clone, Copy, Debug, PartialEq, Eq)]
pub struct Answer {
    pub number: u64,
    pub place: u64,
}

/// The answer of an operation that values.
/// "A refusal gives its number and place, value 0 and margin 0".
#[derive(Clone, Copy, Debug, PartialEq, Eq)]
pub struct Valued {
    pub number: u64,
    pub place: u64,
    pub value: u64,
    pub margin: i64,
}

/// The answer of valuing with a map. "The number of set bits is returned."
/// On refusal "other figures it would report are 0".
#[derive(Clone, Copy, Debug, PartialEq, Eq)]
pub struct Mapped {
    pub valued: Valued,
    pub count: u64,
}

/// How long the slices are that a contract is lent. On refusal "other figures it would report
/// are 0".
#[derive(Clone, Copy, Debug, PartialEq, Eq)]
pub struct Sizes {
    pub number: u64,
    pub place: u64,
    pub work: u64,
    pub table: u64,
    pub map: u64,
}

/// The answer of a search for a fee: "the smallest fee .. with that value". A refusal gives
/// fee 0, as "other figures it would report are 0".
#[derive(Clone, Copy, Debug, PartialEq, Eq)]
pub struct Found {
    pub valued: Valued,
    pub fee: u64,
}

const SUCCESS: Answer = Answer {
    number: 0,
    place: 0,
};

/// Gives a refusal when its condition, in the words of the table, holds.
fn refuse_if(condition: bool, number: u64, place: u64) -> Result<(), Answer> {
    if condition {
        Err(Answer { number, place })
    } else {
        Ok(())
    }
}

fn answer(result: Result<(), Answer>) -> Answer {
    result.err().unwrap_or(SUCCESS)
}

// ------------------------------------------------------ Units and records

/// "Values, cash and penalties are ten-thousandths of a unit."
const UNIT: u64 = 10_000;
/// "ten-thousandths": the whole of a fee, penalty rate, step, factor, weight or death rate.
const WHOLE: u64 = 10_000;
const MOST_TOP: u64 = 4_000;
const MOST_DATES: u64 = 40;
const MOST_DISCOUNT: u64 = 1_000_000;
const MOST_FACTOR: u64 = 30_000;
const RECORD_BYTES: usize = 20;
const RETURN_BYTES: usize = 4;
const MOST_LIST_BYTES: usize = 256;
const RATE_BYTES: usize = 2;
const BOOKING_BYTES: usize = 16;
/// "64-bit words".
const WORD_BITS: usize = 64;

/// The fields of a contract record.
#[derive(Clone, Copy, Debug)]
struct Contract {
    premium: u64,
    level: u64,
    top: u64,
    dates: u64,
    fee: u64,
    penalty: u64,
    discount: u64,
    step: u64,
    spare: u64,
}

/// A return record: factor and weight, both in ten-thousandths.
#[derive(Clone, Copy, Debug)]
struct Return {
    factor: u64,
    weight: u64,
}

/// "fields are unsigned, low byte first". Called with at most 4 bytes.
fn number_in(bytes: &[u8]) -> u64 {
    bytes.iter().rev().fold(0, |n, b| n * 256 + u64::from(*b))
}

/// "The record grows to 20 bytes: a penalty step in ten-thousandths at offset 16, and
/// two spare bytes at 18, which hold zero." Refusals 1 to 6 in the order of the table,
/// then 15, "checked after 6".
fn read_contract(record: &[u8]) -> Result<Contract, Answer> {
    refuse_if(record.len() != RECORD_BYTES, 1, 0)?;
    let c = Contract {
        premium: number_in(&record[0..2]),
        level: number_in(&record[2..4]),
        top: number_in(&record[4..6]),
        dates: number_in(&record[6..8]),
        fee: number_in(&record[8..10]),
        penalty: number_in(&record[10..12]),
        discount: number_in(&record[12..16]),
        step: number_in(&record[16..18]),
        spare: number_in(&record[18..20]),
    };
    refuse_if(c.top > MOST_TOP || c.premium < 1 || c.premium > c.top, 2, 0)?;
    refuse_if(c.level < 1 || c.level > c.premium, 3, 0)?;
    refuse_if(c.dates < 1 || c.dates > MOST_DATES, 4, 0)?;
    refuse_if(c.fee > WHOLE || c.penalty > WHOLE, 5, 0)?;
    refuse_if(c.discount < 1 || c.discount > MOST_DISCOUNT, 6, 0)?;
    refuse_if(c.step > WHOLE || c.spare != 0, 15, 0)?;
    Ok(c)
}

/// "A list has 1 to 64 records and its weights add to 10,000." Refusals 7 to 9.
fn read_returns(list: &[u8]) -> Result<Vec<Return>, Answer> {
    let length = list.len();
    refuse_if(
        length == 0 || length > MOST_LIST_BYTES || length % RETURN_BYTES != 0,
        7,
        0,
    )?;
    let mut returns = Vec::new();
    for bytes in list.chunks(RETURN_BYTES) {
        let factor = number_in(&bytes[0..2]);
        let weight = number_in(&bytes[2..4]);
        let place = returns.len() as u64;
        refuse_if(
            factor > MOST_FACTOR || weight < 1 || weight > WHOLE,
            8,
            place,
        )?;
        returns.push(Return { factor, weight });
    }
    let weights: u64 = returns.iter().map(|r| r.weight).sum();
    refuse_if(weights != WHOLE, 9, 0)?;
    Ok(returns)
}

/// "A list of N death rates (2 bytes, ten-thousandths), one per period, accompanies the
/// contract." Refusals "17, list not of 2 × N bytes; 18, first rate above 10,000, place its
/// index".
fn read_rates(c: &Contract, rates: &[u8]) -> Result<Vec<u64>, Answer> {
    refuse_if(rates.len() != RATE_BYTES * c.dates as usize, 17, 0)?;
    let mut read = Vec::new();
    for bytes in rates.chunks(RATE_BYTES) {
        let rate = number_in(bytes);
        refuse_if(rate > WHOLE, 18, read.len() as u64)?;
        read.push(rate);
    }
    Ok(read)
}

/// "A contract record is read whole before the return list is looked at."
fn read_both(record: &[u8], list: &[u8]) -> Result<(Contract, Vec<Return>), Answer> {
    let contract = read_contract(record)?;
    let returns = read_returns(list)?;
    Ok((contract, returns))
}

/// What accompanies a contract that is valued: the returns, and the death rates in the order
/// of the periods. Period i runs from date i to date i + 1.
struct Lists {
    returns: Vec<Return>,
    rates: Vec<u64>,
}

/// Refusals 17 and 18, "both after 9".
fn read_lists(record: &[u8], list: &[u8], rates: &[u8]) -> Result<(Contract, Lists), Answer> {
    let (contract, returns) = read_both(record, list)?;
    let rates = read_rates(&contract, rates)?;
    Ok((contract, Lists { returns, rates }))
}

#[derive(Clone, Copy, Debug)]
enum Behaviour {
    Static,
    Mixed,
    Dynamic,
}

/// Refusal 10: "behaviour not 0 static, 1 mixed, 2 dynamic".
fn read_behaviour(behaviour: u64) -> Result<Behaviour, Answer> {
    match behaviour {
        0 => Ok(Behaviour::Static),
        1 => Ok(Behaviour::Mixed),
        2 => Ok(Behaviour::Dynamic),
        _ => Err(Answer {
            number: 10,
            place: 0,
        }),
    }
}

// --------------------------------------------------------------- One date

/// "Let m be the smaller of G and A."
fn m_of(c: &Contract, guarantee: u64) -> u64 {
    c.level.min(guarantee)
}

/// "Dynamic: 0 to the larger of W and m." This is the end of that range.
fn largest_amount(c: &Contract, account: u64, guarantee: u64) -> u64 {
    account.max(m_of(c, guarantee))
}

/// "Admissible amounts t", smallest first.
fn admissible(c: &Contract, behaviour: Behaviour, account: u64, guarantee: u64) -> Vec<u64> {
    let m = m_of(c, guarantee);
    match behaviour {
        // "Static: m only."
        Behaviour::Static => vec![m],
        // "Mixed: m and, when W is above m, also W (surrender)."
        Behaviour::Mixed if account > m => vec![m, account],
        Behaviour::Mixed => vec![m],
        // "Dynamic: 0 to the larger of W and m."
        Behaviour::Dynamic => (0..=largest_amount(c, account, guarantee)).collect(),
    }
}

/// "The rate at date i is the record's rate less (i − 1) × step, never below zero."
fn rate_on(c: &Contract, date: u64) -> u64 {
    c.penalty.saturating_sub((date - 1) * c.step)
}

/// "Penalty: rate × (t − m) where t is above m, else 0."
fn penalty_on(c: &Contract, date: u64, guarantee: u64, amount: u64) -> u64 {
    rate_on(c, date) * amount.saturating_sub(m_of(c, guarantee))
}

/// "Cash: 10,000 × t less penalty."
/// The rate is at most 10,000, so the penalty is never more than 10,000 × t.
fn cash_for(c: &Contract, date: u64, guarantee: u64, amount: u64) -> u64 {
    UNIT * amount - penalty_on(c, date, guarantee, amount)
}

/// "Guarantee after: A − t if t is at most m; else the smaller of A − t and
/// A × (W − t) / W rounded down, and never below 0."
/// An admissible t above m is at most W, so there W is above 0.
fn guarantee_after(c: &Contract, account: u64, guarantee: u64, amount: u64) -> u64 {
    let less_amount = guarantee.saturating_sub(amount);
    if amount <= m_of(c, guarantee) {
        less_amount
    } else {
        less_amount.min(guarantee * (account - amount) / account)
    }
}

/// "Balance after: W − t, never below 0."
fn balance_after(account: u64, amount: u64) -> u64 {
    account.saturating_sub(amount)
}

/// "next account = balance × factor × (10,000 − fee) / 100,000,000, rounded down a
/// single time": where a return lifts a balance to, above top or not.
fn lifted_account(c: &Contract, balance: u64, factor: u64) -> u64 {
    balance * factor * (WHOLE - c.fee) / (WHOLE * WHOLE)
}

/// "A result above top is held at top."
fn next_account(c: &Contract, balance: u64, factor: u64) -> u64 {
    lifted_account(c, balance, factor).min(c.top)
}

/// "what a return lifts above top".
fn excess(c: &Contract, balance: u64, factor: u64) -> u64 {
    lifted_account(c, balance, factor).saturating_sub(c.top)
}

/// The excess "is paid to the holder on arrival, without penalty", in ten-thousandths.
fn paid_on_arrival(c: &Contract, balance: u64, factor: u64) -> u64 {
    UNIT * excess(c, balance, factor)
}

// ----------------------------------------------------------------- Values

/// "At maturity the value is 10,000 × the larger of W and A."
fn maturity_value(account: u64, guarantee: u64) -> u64 {
    UNIT * account.max(guarantee)
}

/// "A value reached above top is the value at top plus 10,000 × the excess, also on the
/// first return and at maturity."
fn value_reached(c: &Contract, next: &[u64], balance: u64, factor: u64, guarantee: u64) -> u64 {
    let account = next_account(c, balance, factor);
    next[entry(c, account, guarantee)] + paid_on_arrival(c, balance, factor)
}

/// "Death in a period pays 10,000 × the larger of W and A as reached on its closing date,
/// before any decision, plus 10,000 × any excess over top."
fn death_payment(c: &Contract, balance: u64, factor: u64, guarantee: u64) -> u64 {
    let account = next_account(c, balance, factor);
    UNIT * account.max(guarantee) + UNIT * excess(c, balance, factor)
}

/// "Each reached value becomes ((10,000 − rate) × value + rate × death payment) / 10,000,
/// rounded down".
fn value_with_death(rate: u64, value: u64, payment: u64) -> u64 {
    ((WHOLE - rate) * value + rate * payment) / WHOLE
}

/// "discount × (sum of weight × value reached) / 10,000,000,000, rounded down once", over the
/// returns of a period. Death is counted in each value reached "before weights are applied".
/// Maturity pays at most 10,000 × top; a decision with the return behind it 20,000 × top,
/// since what is drawn is not lifted; the first return as much. A death payment is at most
/// 10,000 × top and the excess. So a value reached is at most 81 × 10,000 × 4,000 =
/// 3,240,000,000 and the product 32.4 × 10^18, above 2^64.
///
/// The sum keeps the order of the list, where an engine adds the weights by account and excess
/// first: "Every value and table is to equal those of the list order", and here is that order.
fn discounted(
    c: &Contract,
    lists: &Lists,
    period: u64,
    next: &[u64],
    balance: u64,
    guarantee: u64,
) -> u64 {
    let rate = lists.rates[period as usize];
    let mut sum = 0;
    for r in &lists.returns {
        let value = value_reached(c, next, balance, r.factor, guarantee);
        let payment = death_payment(c, balance, r.factor, guarantee);
        sum += r.weight * value_with_death(rate, value, payment);
    }
    (u128::from(c.discount) * u128::from(sum) / 10_000_000_000) as u64
}

/// "a choice is worth its cash plus" the discounted sum over the period behind its date.
fn worth(c: &Contract, lists: &Lists, next: &[u64], date: u64, w: u64, a: u64, amount: u64) -> u64 {
    let balance = balance_after(w, amount);
    let guarantee = guarantee_after(c, w, a, amount);
    cash_for(c, date, a, amount) + discounted(c, lists, date, next, balance, guarantee)
}

/// "A state's value under a behaviour is the largest worth among its admissible
/// amounts." "The recorded amount is the smallest among the best ones."
/// Amounts come smallest first, so only a larger worth replaces the one held.
fn best(
    c: &Contract,
    lists: &Lists,
    next: &[u64],
    date: u64,
    w: u64,
    a: u64,
    b: Behaviour,
) -> (u64, u64) {
    let mut held = None;
    for amount in admissible(c, b, w, a) {
        let worth = worth(c, lists, next, date, w, a, amount);
        match held {
            Some((most, _)) if worth <= most => {}
            _ => held = Some((worth, amount)),
        }
    }
    held.unwrap_or((0, 0))
}

/// "A state's value under a behaviour is the largest worth among its admissible amounts",
/// whichever amount that is.
fn state_value(
    c: &Contract,
    lists: &Lists,
    next: &[u64],
    date: u64,
    (w, a): (u64, u64),
    b: Behaviour,
) -> u64 {
    let amounts = admissible(c, b, w, a).into_iter();
    let worths = amounts.map(|amount| worth(c, lists, next, date, w, a, amount));
    worths.fold(0, u64::max)
}

/// "Start: balance U and guarantee U, then the first return." "The contract's value
/// is the same discounted and rounded sum over the first return, without cash."
/// "the margin: value less 10,000 × premium".
fn value_at_start(c: &Contract, lists: &Lists, first: &[u64]) -> (u64, i64) {
    let value = discounted(c, lists, 0, first, c.premium, c.premium);
    (value, value as i64 - (UNIT * c.premium) as i64)
}

// ------------------------------------------------------------ Lent slices

/// "One layer has (top + 1) × (U + 1) entries".
fn layer_size(c: &Contract) -> usize {
    ((c.top + 1) * (c.premium + 1)) as usize
}

/// "the entry of (W, A) is W × (U + 1) + A".
fn entry(c: &Contract, account: u64, guarantee: u64) -> usize {
    (account * (c.premium + 1) + guarantee) as usize
}

/// "the layer of date i starts at entry (i − 1) × (top + 1) × (U + 1)".
fn layer_start(c: &Contract, date: u64) -> usize {
    (date as usize - 1) * layer_size(c)
}

/// The working slice holds "two layers", and "working slices and value fields become
/// 64-bit".
fn work_size(c: &Contract) -> usize {
    2 * layer_size(c)
}

/// The table has a layer for each decision date, "for i from 1 to N−1".
fn table_size(c: &Contract) -> usize {
    (c.dates as usize - 1) * layer_size(c)
}

/// "a bit per table entry": the words that those bits take, the last of them in part.
fn map_size(c: &Contract) -> usize {
    table_size(c).div_ceil(WORD_BITS)
}

/// "State: account W from 0 to top, guarantee A from 0 to U", in the order of entries.
fn states(c: &Contract) -> impl Iterator<Item = (u64, u64)> {
    let (top, premium) = (c.top, c.premium);
    (0..=top).flat_map(move |w| (0..=premium).map(move |a| (w, a)))
}

/// The values of date N.
fn maturity_layer(c: &Contract) -> Vec<u64> {
    states(c).map(|(w, a)| maturity_value(w, a)).collect()
}

/// "After success the first layer holds the values of date 1 and the second zeros." They are
/// a living holder's: the first death rate counts in the contract's value alone.
fn leave_work(work: &mut [u64], first: &[u64]) {
    work[..first.len()].copy_from_slice(first);
    work[first.len()..2 * first.len()].fill(0);
}

// ------------------------------------------------------------- Operations

fn valued(result: Result<(u64, i64), Answer>) -> Valued {
    let (told, (value, margin)) = match result {
        Ok(figures) => (SUCCESS, figures),
        Err(refusal) => (refusal, (0, 0)),
    };
    Valued {
        number: told.number,
        place: told.place,
        value,
        margin,
    }
}

/// "checking a record": refusals 1 to 6 and 15.
pub fn check(record: &[u8]) -> Answer {
    answer(read_contract(record).map(|_| ()))
}

/// How many entries the working slice and the table need, and how many words the map:
/// refusals 1 to 6 and 15.
pub fn sizes(record: &[u8]) -> Sizes {
    let (told, needed) = match read_contract(record) {
        Ok(c) => (SUCCESS, [work_size(&c), table_size(&c), map_size(&c)]),
        Err(refusal) => (refusal, [0; 3]),
    };
    let [work, table, map] = needed.map(|n| n as u64);
    Sizes {
        number: told.number,
        place: told.place,
        work,
        table,
        map,
    }
}

/// What a valuing call reads: refusals 1 to 6, 15, 7 to 9, 17, 18, 10 and 11.
fn read_valuing(
    record: &[u8],
    list: &[u8],
    rates: &[u8],
    behaviour: u64,
    work: &[u64],
    table: &[u16],
) -> Result<(Contract, Lists, Behaviour), Answer> {
    let (c, lists) = read_lists(record, list, rates)?;
    let behaviour = read_behaviour(behaviour)?;
    let short = work.len() < work_size(&c) || table.len() < table_size(&c);
    refuse_if(short, 11, 0)?;
    Ok((c, lists, behaviour))
}

/// Fills working slice and table, date by date from the last; gives value and margin.
fn fill_table(
    c: &Contract,
    lists: &Lists,
    behaviour: Behaviour,
    work: &mut [u64],
    table: &mut [u16],
) -> (u64, i64) {
    let mut next = maturity_layer(c);
    for date in (1..c.dates).rev() {
        let mut values = Vec::with_capacity(next.len());
        for (w, a) in states(c) {
            let (worth, amount) = best(c, lists, &next, date, w, a, behaviour);
            values.push(worth);
            table[layer_start(c, date) + entry(c, w, a)] = amount as u16;
        }
        next = values;
    }
    leave_work(work, &next);
    value_at_start(c, lists, &next)
}

/// "valuing a contract": refusals 1 to 6, 15, 7 to 9, 17, 18, 10 and 11.
pub fn value(
    record: &[u8],
    list: &[u8],
    rates: &[u8],
    behaviour: u64,
    work: &mut [u64],
    table: &mut [u16],
) -> Valued {
    valued(try_value(record, list, rates, behaviour, work, table))
}

fn try_value(
    record: &[u8],
    list: &[u8],
    rates: &[u8],
    behaviour: u64,
    work: &mut [u64],
    table: &mut [u16],
) -> Result<(u64, i64), Answer> {
    let (c, lists, behaviour) = read_valuing(record, list, rates, behaviour, work, table)?;
    Ok(fill_table(&c, &lists, behaviour, work, table))
}

/// "valuing a contract", no table lent: refusals 1 to 6, 15, 7 to 9, 17, 18, 10 and 11, which
/// looks at the working slice alone.
pub fn value_no_table(
    record: &[u8],
    list: &[u8],
    rates: &[u8],
    behaviour: u64,
    work: &mut [u64],
) -> Valued {
    valued(try_value_no_table(record, list, rates, behaviour, work))
}

fn try_value_no_table(
    record: &[u8],
    list: &[u8],
    rates: &[u8],
    behaviour: u64,
    work: &mut [u64],
) -> Result<(u64, i64), Answer> {
    let (c, lists, behaviour) = read_no_table(record, list, rates, behaviour, work)?;
    let first = values_of_date_1(&c, &lists, behaviour);
    leave_work(work, &first);
    Ok(value_at_start(&c, &lists, &first))
}

/// What a call reads that values by the working slice alone.
fn read_no_table(
    record: &[u8],
    list: &[u8],
    rates: &[u8],
    behaviour: u64,
    work: &[u64],
) -> Result<(Contract, Lists, Behaviour), Answer> {
    let (c, lists) = read_lists(record, list, rates)?;
    let behaviour = read_behaviour(behaviour)?;
    refuse_if(work.len() < work_size(&c), 11, 0)?;
    Ok((c, lists, behaviour))
}

/// The values of date 1, date by date from maturity; with one date those of maturity.
fn values_of_date_1(c: &Contract, lists: &Lists, behaviour: Behaviour) -> Vec<u64> {
    let mut next = maturity_layer(c);
    for date in (1..c.dates).rev() {
        let value = |state| state_value(c, lists, &next, date, state, behaviour);
        next = states(c).map(value).collect();
    }
    next
}

/// "A valuing call that is also lent 64-bit words": refusals 1 to 6, 15, 7 to 9, 17, 18, 10,
/// 11 and 16.
pub fn value_map(
    record: &[u8],
    list: &[u8],
    rates: &[u8],
    behaviour: u64,
    work: &mut [u64],
    table: &mut [u16],
    map: &mut [u64],
) -> Mapped {
    let result = try_value_map(record, list, rates, behaviour, work, table, map);
    Mapped {
        valued: valued(result.map(|(figures, _)| figures)),
        count: result.map_or(0, |(_, count)| count),
    }
}

/// "16, map too short for the table, checked after 11". The map is none of 11's slices:
/// 11 "leaves out slices whose length has its own number".
fn try_value_map(
    record: &[u8],
    list: &[u8],
    rates: &[u8],
    behaviour: u64,
    work: &mut [u64],
    table: &mut [u16],
    map: &mut [u64],
) -> Result<((u64, i64), u64), Answer> {
    let (c, lists, behaviour) = read_valuing(record, list, rates, behaviour, work, table)?;
    refuse_if(map.len() < map_size(&c), 16, 0)?;
    let figures = fill_table(&c, &lists, behaviour, work, table);
    Ok((figures, fill_map(&c, table, map)))
}

/// "a bit per table entry, lowest bit first: set when the amount equals W and W is above
/// m, clear otherwise. Unused bits of the last word are zero, and later words are
/// untouched." Gives "the number of set bits".
fn fill_map(c: &Contract, table: &[u16], map: &mut [u64]) -> u64 {
    map[..map_size(c)].fill(0);
    let mut count = 0;
    for date in 1..c.dates {
        for (w, a) in states(c) {
            let place = layer_start(c, date) + entry(c, w, a);
            if u64::from(table[place]) == w && w > m_of(c, a) {
                map[place / WORD_BITS] |= 1 << (place % WORD_BITS);
                count += 1;
            }
        }
    }
    count
}

/// "Pricing staff name a wanted value and a behaviour": refusals 1 to 6, 15, 7 to 9, 17, 18,
/// 10, 11 and 19.
pub fn fee(
    record: &[u8],
    list: &[u8],
    rates: &[u8],
    behaviour: u64,
    wanted: u64,
    work: &mut [u64],
) -> Found {
    let result = try_fee(record, list, rates, behaviour, wanted, work);
    Found {
        valued: valued(result.map(|(_, figures)| figures)),
        fee: result.map_or(0, |(fee, _)| fee),
    }
}

/// "No table is lent." "After the search, found or not, the needed working entries are
/// zero". "19, every fee from 0 to 10,000 gives more than wanted, found last."
fn try_fee(
    record: &[u8],
    list: &[u8],
    rates: &[u8],
    behaviour: u64,
    wanted: u64,
    work: &mut [u64],
) -> Result<(u64, (u64, i64)), Answer> {
    let (c, lists, behaviour) = read_no_table(record, list, rates, behaviour, work)?;
    let found = smallest_fee(c, &lists, behaviour, wanted);
    work[..work_size(&c)].fill(0);
    found.ok_or(Answer {
        number: 19,
        place: 0,
    })
}

/// "the smallest fee from 0 to 10,000 whose value does not exceed it": every fee is tried in
/// its turn, and that the next one's value is no larger is not relied on. "The record's own
/// fee is range-checked and otherwise unused." A fee has a part in a value only by where the
/// returns lead; one that leads where the fee before it does is not valued anew.
fn smallest_fee(
    mut c: Contract,
    lists: &Lists,
    behaviour: Behaviour,
    wanted: u64,
) -> Option<(u64, (u64, i64))> {
    let mut last = None;
    for fee in 0..=WHOLE {
        c.fee = fee;
        let led = all_lifted(&c, &lists.returns);
        let figures = match last {
            Some((before, figures)) if before == led => figures,
            _ => value_at_start(&c, lists, &values_of_date_1(&c, lists, behaviour)),
        };
        if figures.0 <= wanted {
            return Some((fee, figures));
        }
        last = Some((led, figures));
    }
    None
}

/// Where each return lifts each balance to.
fn all_lifted(c: &Contract, returns: &[Return]) -> Vec<u64> {
    let mut all = Vec::new();
    for balance in 0..=c.top {
        all.extend(returns.iter().map(|r| lifted_account(c, balance, r.factor)));
    }
    all
}

/// "valuing a supplied withdrawal table": refusals 1 to 6, 15, 7 to 9, 17, 18, 11 and 14.
pub fn value_table(
    record: &[u8],
    list: &[u8],
    rates: &[u8],
    work: &mut [u64],
    table: &[u16],
) -> Valued {
    valued(try_value_table(record, list, rates, work, table))
}

fn try_value_table(
    record: &[u8],
    list: &[u8],
    rates: &[u8],
    work: &mut [u64],
    table: &[u16],
) -> Result<(u64, i64), Answer> {
    let (c, lists) = read_lists(record, list, rates)?;
    let short = work.len() < work_size(&c) || table.len() < table_size(&c);
    refuse_if(short, 11, 0)?;
    check_table(&c, table)?;

    let mut next = maturity_layer(&c);
    for date in (1..c.dates).rev() {
        let mut values = Vec::with_capacity(next.len());
        for (w, a) in states(&c) {
            let amount = u64::from(table[layer_start(&c, date) + entry(&c, w, a)]);
            values.push(worth(&c, &lists, &next, date, w, a, amount));
        }
        next = values;
    }
    leave_work(work, &next);
    Ok(value_at_start(&c, &lists, &next))
}

/// "A supplied table is checked in every entry, reachable or not, against the dynamic
/// set". Refusal 14, "first bad table entry".
fn check_table(c: &Contract, table: &[u16]) -> Result<(), Answer> {
    for date in 1..c.dates {
        for (w, a) in states(c) {
            let place = layer_start(c, date) + entry(c, w, a);
            let amount = u64::from(table[place]);
            refuse_if(amount > largest_amount(c, w, a), 14, place as u64)?;
        }
    }
    Ok(())
}

/// "booking one withdrawal": refusals 1 to 6, 15, 11, 12 and 14.
pub fn book(
    record: &[u8],
    date: u64,
    account: u64,
    guarantee: u64,
    amount: u64,
    buffer: &mut [u8],
) -> Answer {
    answer(try_book(record, date, account, guarantee, amount, buffer))
}

/// "A booking fills 16 bytes: cash (4), penalty (4), balance (2), guarantee (2), four
/// zeros."
fn try_book(
    record: &[u8],
    date: u64,
    w: u64,
    a: u64,
    amount: u64,
    buffer: &mut [u8],
) -> Result<(), Answer> {
    let c = read_contract(record)?;
    refuse_if(buffer.len() != BOOKING_BYTES, 11, 0)?;
    let no_decision = date < 1 || date > c.dates - 1;
    refuse_if(no_decision || w > c.top || a > c.premium, 12, 0)?;
    refuse_if(amount > largest_amount(&c, w, a), 14, 0)?;

    let cash = cash_for(&c, date, a, amount) as u32;
    let penalty = penalty_on(&c, date, a, amount) as u32;
    let balance = balance_after(w, amount) as u16;
    let guarantee = guarantee_after(&c, w, a, amount) as u16;
    buffer[0..4].copy_from_slice(&cash.to_le_bytes());
    buffer[4..8].copy_from_slice(&penalty.to_le_bytes());
    buffer[8..10].copy_from_slice(&balance.to_le_bytes());
    buffer[10..12].copy_from_slice(&guarantee.to_le_bytes());
    buffer[12..16].fill(0);
    Ok(())
}

/// "walking a contract along a given path": refusals 1 to 6, 15, 7 to 9, 11, 13 and 14.
/// "a walk is a living holder's and takes no rates".
pub fn walk(
    record: &[u8],
    list: &[u8],
    table: &[u16],
    numbers: &[u16],
    cash: &mut [u64],
) -> Answer {
    answer(try_walk(record, list, table, numbers, cash))
}

fn try_walk(
    record: &[u8],
    list: &[u8],
    table: &[u16],
    numbers: &[u16],
    cash: &mut [u64],
) -> Result<(), Answer> {
    let (c, returns) = read_both(record, list)?;
    let dates = c.dates as usize;
    refuse_if(table.len() < table_size(&c) || cash.len() < dates, 11, 0)?;
    check_numbers(&c, &returns, numbers)?;

    // Kept apart until the end: a refusal on the way leaves the lent cash as it was.
    let mut paid = Vec::with_capacity(dates);
    let (mut balance, mut guarantee) = (c.premium, c.premium);
    for (date, number) in (1..=c.dates).zip(numbers) {
        let factor = returns[usize::from(*number)].factor;
        let account = next_account(&c, balance, factor);
        // "A walk adds 10,000 × the excess to the cash of the date reached."
        let arrival = paid_on_arrival(&c, balance, factor);
        if date == c.dates {
            paid.push(arrival + maturity_value(account, guarantee));
            break;
        }
        let amount = u64::from(table[layer_start(&c, date) + entry(&c, account, guarantee)]);
        refuse_if(amount > largest_amount(&c, account, guarantee), 14, date)?;
        paid.push(arrival + cash_for(&c, date, guarantee, amount));
        guarantee = guarantee_after(&c, account, guarantee, amount);
        balance = balance_after(account, amount);
    }
    cash[..dates].copy_from_slice(&paid);
    Ok(())
}

/// Refusal 13: "count not N (looked at first), or no such return"; place "first bad
/// index; N if the count is wrong".
fn check_numbers(c: &Contract, returns: &[Return], numbers: &[u16]) -> Result<(), Answer> {
    refuse_if(numbers.len() as u64 != c.dates, 13, c.dates)?;
    for (index, number) in numbers.iter().enumerate() {
        refuse_if(usize::from(*number) >= returns.len(), 13, index as u64)?;
    }
    Ok(())
}

// ------------------------------------------------------------ The program

/// What the program `gmwbval` prints for the bytes of its two files. "A refusal prints
/// only `refused`, number and place, parted by single spaces."
pub fn program(record: &[u8], list: &[u8]) -> String {
    match try_program(record, list) {
        Ok(lines) => lines,
        Err(refusal) => format!("refused {} {}\n", refusal.number, refusal.place),
    }
}

/// "The first three lines give each behaviour's name and the contract's value. Each
/// later line: return number, account and guarantee at date 1, recorded static, mixed
/// and dynamic amounts; none for N = 1." The program lends "a table of 16,384" and
/// "4,096 working numbers, refusing by 11 what needs more". "Zero rates, as the program uses".
fn try_program(record: &[u8], list: &[u8]) -> Result<String, Answer> {
    let (c, returns) = read_both(record, list)?;
    let rates = vec![0; RATE_BYTES * c.dates as usize];
    let mut work = vec![0; 4_096];
    let mut tables = [vec![0; 16_384], vec![0; 16_384], vec![0; 16_384]];
    let mut lines = String::new();
    for (behaviour, name) in ["static", "mixed", "dynamic"].into_iter().enumerate() {
        let table = &mut tables[behaviour];
        let behaviour = behaviour as u64;
        let (value, _) = try_value(record, list, &rates, behaviour, &mut work, table)?;
        lines += &format!("{name} {value}\n");
    }
    if c.dates > 1 {
        for (number, r) in returns.iter().enumerate() {
            let account = next_account(&c, c.premium, r.factor);
            let place = entry(&c, account, c.premium);
            let amounts = [tables[0][place], tables[1][place], tables[2][place]];
            let [fixed, mixed, free] = amounts;
            let guarantee = c.premium;
            lines += &format!("{number} {account} {guarantee} {fixed} {mixed} {free}\n");
        }
    }
    Ok(lines)
}
