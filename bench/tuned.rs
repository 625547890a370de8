//! Valuing a contract, tuned by hand: what the proved engine is timed against.
//!
//! Safe Rust without SIMD intrinsics, over the engine's design. Each date has two steps: the
//! second layer is filled with E(b, a), the discounted sum for balance b and guarantee a, times
//! 8,192; then the first layer is overwritten with the values of the date, the table's layer
//! with its amounts. The two lent layers hold all states, and the states of an account are
//! decided where their values will stand. Beyond them there are only rows: one of sums, one of
//! flags for the map of surrender, and the slices of the rows that a balance leads to, with arrays
//! of 64 that tell which these are.
//!
//! What makes it fast: every loop that costs runs along the guarantee, so that it reads rows
//! in order and the compiler can widen it; value and amount are one number, a key, so that one
//! maximum decides both; eight rows are summed at once, so that a sum is loaded and stored less
//! often; and no division but by a power of two stands in a loop over choices.
//!
//! The returns are sorted by factor when they are read, so that those to one account stand together
//! for every balance: their weights are added first, and a row is summed once for all of them.
//!
//! What a return lifts above top is paid whatever the guarantee: one number for a balance, from
//! which each of its sums starts. So all returns to top and above it share top's row.
//!
//! Death pays a whole number of money units, so its share of a value reached is that of the state,
//! whatever the excess: it is taken of each row of values as soon as the row is decided, while it
//! is at hand. Date 1's are left as they are, and of them only those that the first return reaches
//! are shared. At maturity there is nothing to share, since death pays what maturity does.
//!
//! A search for a fee reads its contract once and values it without a table, so that no amount is
//! stored; the layers are cleared once, at its end.
//!
//! A value reached is at most 81 × 10,000 × 4,000 = 3,240,000,000, below 2^32; a key is below 2^45.

use crate::gmwb::{Found, Mapped, Valued};

const UNIT: u64 = 10_000;

/// Keys and stored sums hold values times this; every amount is below it.
const SPAN: u64 = 8_192;

/// A discount of at most 1,000,000 times this is below 2^64.
const MOST_PLAIN: u64 = 18_000_000_000_000;

const MOST_RETURNS: usize = 64;

/// Rows are summed twice so many at once, or so many; there are never fewer left.
const BLOCK: usize = 4;

/// How many states are passed over at once, and then again how many of them.
const RUN: usize = 32;
const PART: usize = 8;

struct Terms {
    premium: usize,
    level: usize,
    top: usize,
    dates: usize,
    fee: u64,
    penalty: u64,
    discount: u64,
    step: u64,
}

/// The weight has 32 bits, and `product` takes a value's lower 32, which are all of it: a
/// product of two 32-bit numbers can be widened on the plainest x86-64, one of two 64-bit
/// numbers cannot.
struct Return {
    factor: u64,
    weight: u32,
}

/// The death rate of a period, above 0. A living holder's share of a value, (10,000 − rate) × value
/// / 10,000 rounded down, is value × living / 2^64 rounded down, with living = (10,000 − rate) ×
/// 2^64 / 10,000 rounded up: the rounding adds less than value / 2^64, which is below 1 / 10,000,
/// and the quotient lies at least 1 / 10,000 below the next whole number. `living` comes in halves,
/// so that `product` serves.
struct Death {
    rate: u64,
    living_high: u32,
    living_low: u32,
}

impl Death {
    /// None where the rate is 0.
    fn at(rate: u64) -> Option<Death> {
        let living = (u128::from(UNIT - rate) << 64).div_ceil(UNIT.into());
        (rate > 0).then_some(Death {
            rate,
            living_high: (living >> 32) as u32,
            living_low: living as u32,
        })
    }

    /// A living holder's share of a value plus death's, which is rate × the money units paid and
    /// needs no rounding.
    fn shared(&self, value: u64, death: u64) -> u64 {
        let low = product(self.living_low, &value) >> 32;
        ((product(self.living_high, &value) + low) >> 32) + death
    }

    /// Shares the values of an account's states. Death pays the larger of account and guarantee.
    fn share_row(&self, account: usize, row: &mut [u64]) {
        let (up_to_account, above) = row.split_at_mut(row.len().min(account + 1));
        let mut death = self.rate * account as u64;
        for value in up_to_account {
            *value = self.shared(*value, death);
        }
        for value in above {
            death += self.rate;
            *value = self.shared(*value, death);
        }
    }
}

/// Number and place.
type Refusal = (u64, u64);

impl Terms {
    fn stride(&self) -> usize {
        self.premium + 1
    }

    fn layer(&self) -> usize {
        (self.top + 1) * self.stride()
    }

    /// Of the table.
    fn entries(&self) -> usize {
        (self.dates - 1) * self.layer()
    }

    /// The cash of one unit above m on a date.
    fn net(&self, date: usize) -> u64 {
        UNIT - self.penalty.saturating_sub((date as u64 - 1) * self.step)
    }

    /// Where a return lifts a balance to, above top or not.
    fn lifted(&self, balance: usize, factor: u64) -> usize {
        (balance as u64 * factor * (UNIT - self.fee) / (UNIT * UNIT)) as usize
    }

    /// No value of a state passes this where so many decisions lie ahead: maturity pays at most
    /// 10,000 × top, a decision with the return behind it twice that.
    fn most(&self, decisions: usize) -> u64 {
        UNIT * self.top as u64 * (2 * decisions as u64 + 1)
    }
}

/// discount × sum / 10^10 by one product: for sums up to `MOST_PLAIN`.
fn discounted_plain(discount: u64, sum: u64) -> u64 {
    discount * sum / 10_000_000_000
}

/// The same for any sum, whose product could pass 2^64. It is divided by 2^10 first: that is the
/// product of the bits above the lowest ten, and what those add.
fn discounted_any(discount: u64, sum: u64) -> u64 {
    let divided = discount * (sum >> 10) + (discount * (sum & 1_023) >> 10);
    divided / 9_765_625
}

// ---------------------------------------------------------------- Reading

fn refuse_if(condition: bool, number: u64, place: u64) -> Result<(), Refusal> {
    if condition {
        Err((number, place))
    } else {
        Ok(())
    }
}

fn word(bytes: &[u8], at: usize) -> u16 {
    u16::from_le_bytes([bytes[at], bytes[at + 1]])
}

fn read_terms(record: &[u8]) -> Result<Terms, Refusal> {
    refuse_if(record.len() != 20, 1, 0)?;
    let terms = Terms {
        premium: word(record, 0).into(),
        level: word(record, 2).into(),
        top: word(record, 4).into(),
        dates: word(record, 6).into(),
        fee: word(record, 8).into(),
        penalty: word(record, 10).into(),
        discount: u64::from(word(record, 12)) + 65_536 * u64::from(word(record, 14)),
        step: word(record, 16).into(),
    };
    let premium_in_range = (1..=terms.top).contains(&terms.premium);
    refuse_if(terms.top > 4_000 || !premium_in_range, 2, 0)?;
    refuse_if(!(1..=terms.premium).contains(&terms.level), 3, 0)?;
    refuse_if(!(1..=40).contains(&terms.dates), 4, 0)?;
    refuse_if(terms.fee > UNIT || terms.penalty > UNIT, 5, 0)?;
    refuse_if(!(1..=1_000_000).contains(&terms.discount), 6, 0)?;
    refuse_if(terms.step > UNIT || word(record, 18) != 0, 15, 0)?;
    Ok(terms)
}

fn read_returns(list: &[u8]) -> Result<Vec<Return>, Refusal> {
    let bad_length = list.is_empty() || list.len() > 256 || list.len() % 4 != 0;
    refuse_if(bad_length, 7, 0)?;
    let mut returns = Vec::with_capacity(list.len() / 4);
    for (place, bytes) in list.chunks_exact(4).enumerate() {
        let (factor, weight) = (word(bytes, 0).into(), word(bytes, 2).into());
        let bad = factor > 30_000 || !(1..=10_000).contains(&weight);
        refuse_if(bad, 8, place as u64)?;
        returns.push(Return { factor, weight });
    }
    let weights: u32 = returns.iter().map(|r| r.weight).sum();
    refuse_if(weights != 10_000, 9, 0)?;
    // Behind the checks, whose places are those of the list.
    returns.sort_unstable_by_key(|r| r.factor);
    Ok(returns)
}

fn read_rates(terms: &Terms, rates: &[u8]) -> Result<Vec<u64>, Refusal> {
    refuse_if(rates.len() != 2 * terms.dates, 17, 0)?;
    let rates: Vec<u64> = rates.chunks_exact(2).map(|b| word(b, 0).into()).collect();
    match rates.iter().position(|rate| *rate > UNIT) {
        Some(place) => Err((18, place as u64)),
        None => Ok(rates),
    }
}

// ---------------------------------------------------------------- Valuing

/// Values a contract; the checks and the answer are those of second/gmwb.rs.
pub fn value(
    record: &[u8],
    list: &[u8],
    rates: &[u8],
    behaviour: u64,
    work: &mut [u64],
    table: &mut [u16],
) -> Valued {
    let read = read_valuing(record, list, rates, behaviour, work, table);
    told(read.map(|contract| fill_table(&contract, behaviour, work, table)))
}

/// The same with a map of surrender.
pub fn value_map(
    record: &[u8],
    list: &[u8],
    rates: &[u8],
    behaviour: u64,
    work: &mut [u64],
    table: &mut [u16],
    map: &mut [u64],
) -> Mapped {
    let result = try_value_map(record, list, rates, behaviour, work, table, map);
    Mapped {
        valued: told(result.map(|(figures, _)| figures)),
        count: result.map_or(0, |(_, count)| count),
    }
}

fn try_value_map(
    record: &[u8],
    list: &[u8],
    rates: &[u8],
    behaviour: u64,
    work: &mut [u64],
    table: &mut [u16],
    map: &mut [u64],
) -> Result<((u64, i64), u64), Refusal> {
    let contract = read_valuing(record, list, rates, behaviour, work, table)?;
    let entries = contract.terms.entries();
    refuse_if(map.len() < entries.div_ceil(64), 16, 0)?;
    let figures = fill_table(&contract, behaviour, work, table);
    Ok((figures, fill_map(&contract.terms, &table[..entries], map)))
}

fn told(result: Result<(u64, i64), Refusal>) -> Valued {
    let (number, place) = result.err().unwrap_or((0, 0));
    let (value, margin) = result.unwrap_or((0, 0));
    Valued {
        number,
        place,
        value,
        margin,
    }
}

struct Contract {
    terms: Terms,
    returns: Vec<Return>,
    /// One for each period; period i leads to date i + 1.
    rates: Vec<u64>,
}

fn read_contract(
    record: &[u8],
    list: &[u8],
    rates: &[u8],
    behaviour: u64,
    work: &[u64],
) -> Result<Contract, Refusal> {
    let terms = read_terms(record)?;
    let returns = read_returns(list)?;
    let rates = read_rates(&terms, rates)?;
    refuse_if(behaviour > 2, 10, 0)?;
    refuse_if(work.len() < 2 * terms.layer(), 11, 0)?;
    Ok(Contract {
        terms,
        returns,
        rates,
    })
}

/// The same where a table is lent.
fn read_valuing(
    record: &[u8],
    list: &[u8],
    rates: &[u8],
    behaviour: u64,
    work: &[u64],
    table: &[u16],
) -> Result<Contract, Refusal> {
    let contract = read_contract(record, list, rates, behaviour, work)?;
    refuse_if(table.len() < contract.terms.entries(), 11, 0)?;
    Ok(contract)
}

/// Fills working slice and table; gives value and margin.
fn fill_table(
    contract: &Contract,
    behaviour: u64,
    work: &mut [u64],
    table: &mut [u16],
) -> (u64, i64) {
    let layer = contract.terms.layer();
    let figures = fill_dates(contract, behaviour, work, table);
    work[layer..2 * layer].fill(0);
    figures
}

/// Values all dates, with a table or, where it is empty, without one; gives value and margin. The
/// second layer is left as it comes.
fn fill_dates(
    contract: &Contract,
    behaviour: u64,
    work: &mut [u64],
    table: &mut [u16],
) -> (u64, i64) {
    let Contract {
        terms,
        returns,
        rates,
    } = contract;
    let layer = terms.layer();
    let (values, expected) = work[..2 * layer].split_at_mut(layer);
    fill_maturity(terms, values);
    for index in (0..terms.dates - 1).rev() {
        let amounts = part(table, index, layer);
        let net = terms.net(index + 1);
        let most = terms.most(terms.dates - 2 - index);
        expect_layer(terms, returns, most, values, expected);
        let death = Death::at(rates[index]).filter(|_| index > 0);
        let decided = |account: usize, row: &mut [u64]| {
            if let Some(death) = &death {
                death.share_row(account, row);
            }
        };
        match behaviour {
            0 => decide_static(terms, values, expected, amounts, decided),
            1 => decide_mixed(terms, net, values, expected, amounts, decided),
            _ => decide_dynamic(terms, net, values, expected, amounts, decided),
        }
    }
    value_at_start(contract, values)
}

/// The part of that index among parts of a length: the layer of a date, the row of an account.
/// Empty where no table is lent.
fn part(amounts: &mut [u16], index: usize, length: usize) -> &mut [u16] {
    if amounts.is_empty() {
        return amounts;
    }
    &mut amounts[index * length..][..length]
}

/// Shared already, whatever the rate: death pays the same.
fn fill_maturity(terms: &Terms, values: &mut [u64]) {
    for (account, row) in values.chunks_exact_mut(terms.stride()).enumerate() {
        for (guarantee, value) in row.iter_mut().enumerate() {
            *value = UNIT * account.max(guarantee) as u64;
        }
    }
}

/// Value and margin: the first return from balance and guarantee U.
fn value_at_start(contract: &Contract, values: &[u64]) -> (u64, i64) {
    let terms = &contract.terms;
    let death = Death::at(contract.rates[0]);
    let mut sum = 0;
    for r in &contract.returns {
        let lifted = terms.lifted(terms.premium, r.factor);
        let excess = lifted.saturating_sub(terms.top);
        let account = lifted - excess;
        let living = values[account * terms.stride() + terms.premium];
        let value = death.as_ref().map_or(living, |death| {
            death.shared(living, death.rate * account.max(terms.premium) as u64)
        });
        sum += u64::from(r.weight) * (value + UNIT * excess as u64);
    }
    let value = discounted_any(terms.discount, sum);
    let premium = UNIT * terms.premium as u64;
    (value, value as i64 - premium as i64)
}

// ---------------------------------------------------- Step 1: expectation

/// Where the returns lead from one balance after another. The balance rises by 1 from 0, so that
/// no division is needed: each return lifts it by so many whole units and a part of one, in
/// 100,000,000ths. Numbers of 32 bits, so that the step is widened.
struct Led {
    count: usize,
    weight: [u32; MOST_RETURNS],
    lifted: [u32; MOST_RETURNS],
    rest: [u32; MOST_RETURNS],
    units: [u32; MOST_RETURNS],
    part: [u32; MOST_RETURNS],
}

impl Led {
    /// From balance 0; the returns rise.
    fn new(terms: &Terms, returns: &[Return]) -> Led {
        let mut led = Led {
            count: returns.len(),
            weight: [0; MOST_RETURNS],
            lifted: [0; MOST_RETURNS],
            rest: [0; MOST_RETURNS],
            units: [0; MOST_RETURNS],
            part: [0; MOST_RETURNS],
        };
        for (k, r) in returns.iter().enumerate() {
            let step = r.factor * (UNIT - terms.fee);
            led.weight[k] = r.weight;
            led.units[k] = (step / (UNIT * UNIT)) as u32;
            led.part[k] = (step % (UNIT * UNIT)) as u32;
        }
        led
    }

    /// To the next balance. Eight returns at once; behind the last there are zeros.
    fn step(&mut self) {
        const WHOLE: i32 = (UNIT * UNIT) as i32;
        let (lifted, _) = self.lifted.as_chunks_mut::<8>();
        let (rest, _) = self.rest.as_chunks_mut::<8>();
        let (units, _) = self.units.as_chunks::<8>();
        let (part, _) = self.part.as_chunks::<8>();
        for i in 0..self.count.div_ceil(8) {
            for k in 0..8 {
                let more = (rest[i][k] + part[i][k]) as i32 - WHOLE;
                // All ones where no unit is full.
                let short = more >> 31;
                rest[i][k] = (more + (WHOLE & short)) as u32;
                lifted[i][k] += units[i][k] + (1 + short) as u32;
            }
        }
    }

    /// Puts the rows of the accounts reached, each with the weight of all returns to it, then rows
    /// of weight 0 up to a whole block. Gives their number, and what is above top by weight, in
    /// ten-thousandths. The returns rise, so those to one account stand together; those above top
    /// count as to top, since their excess is paid apart.
    fn join<'a>(
        &self,
        top: usize,
        row: impl Fn(usize) -> &'a [u64],
        rows: &mut [(u32, &'a [u64]); MOST_RETURNS],
    ) -> (usize, u64) {
        let (mut end, mut to_top, mut above) = (self.count, 0, 0);
        while end > 0 && self.lifted[end - 1] as usize >= top {
            end -= 1;
            to_top += self.weight[end];
            above += u64::from(self.weight[end]) * u64::from(self.lifted[end] - top as u32);
        }
        let (mut count, mut last) = (0, u32::MAX);
        for (lifted, weight) in self.lifted[..end].iter().zip(&self.weight) {
            if *lifted == last {
                rows[count - 1].0 += weight;
            } else {
                last = *lifted;
                rows[count] = (*weight, row(last as usize));
                count += 1;
            }
        }
        if to_top > 0 {
            rows[count] = (to_top, row(top));
            count += 1;
        }
        while count % BLOCK != 0 {
            rows[count] = (0, rows[0].1);
            count += 1;
        }
        (count, UNIT * above)
    }
}

/// E(b, a) times `SPAN` for every balance and guarantee, from the values of the next date, none
/// of which passes `most`.
fn expect_layer(
    terms: &Terms,
    returns: &[Return],
    most: u64,
    values: &[u64],
    expected: &mut [u64],
) {
    let stride = terms.stride();
    let mut sums = vec![0; stride];
    let mut rows: [(u32, &[u64]); MOST_RETURNS] = [(0, &[]); MOST_RETURNS];
    let mut led = Led::new(terms, returns);
    for out in expected.chunks_exact_mut(stride) {
        let row = |account: usize| &values[account * stride..][..stride];
        let (count, paid) = led.join(terms.top, row, &mut rows);
        led.step();
        sum_rows(&rows[..count], paid, &mut sums);
        if UNIT * most + paid <= MOST_PLAIN {
            discount_row(terms, &sums, out, discounted_plain);
        } else {
            discount_row(terms, &sums, out, discounted_any);
        }
    }
}

fn discount_row(
    terms: &Terms,
    sums: &[u64],
    out: &mut [u64],
    discounted: impl Fn(u64, u64) -> u64,
) {
    for (e, sum) in out.iter_mut().zip(sums) {
        *e = SPAN * discounted(terms.discount, *sum);
    }
}

fn product(weight: u32, value: &u64) -> u64 {
    u64::from(weight) * (value & 0xffff_ffff)
}

/// What is paid and the weighted sum of the rows, eight at a time and at last four: one load and
/// one store of a sum for eight products, and no load for the first. Paid joins here, where the
/// loop is widened: at the discount, which is not, it made static withdrawals a tenth slower.
fn sum_rows(rows: &[(u32, &[u64])], paid: u64, sums: &mut [u64]) {
    let (eights, four) = rows.as_chunks::<8>();
    let (four, _) = four.as_chunks::<BLOCK>();
    match eights.split_first() {
        Some((first, others)) => {
            sum_eight(first, sums, |_, added| paid + added);
            for eight in others {
                sum_eight(eight, sums, |sum, added| sum + added);
            }
            for four in four {
                sum_four(four, sums, |sum, added| sum + added);
            }
        }
        None => {
            for four in four {
                sum_four(four, sums, |_, added| paid + added);
            }
        }
    }
}

/// `joined` is given the sum in place and that of the eight products. The rows are cut to the
/// length of the sums, so that the loop needs no test of its own for each.
fn sum_eight(eight: &[(u32, &[u64]); 8], sums: &mut [u64], joined: impl Fn(u64, u64) -> u64) {
    let n = sums.len();
    let [a, b, c, d, e, f, g, h] = eight.map(|(weight, row)| (weight, &row[..n]));
    for j in 0..n {
        let part = |row: (u32, &[u64])| product(row.0, &row.1[j]);
        let first = part(a) + part(b) + part(c) + part(d);
        let second = part(e) + part(f) + part(g) + part(h);
        sums[j] = joined(sums[j], first + second);
    }
}

fn sum_four(four: &[(u32, &[u64]); BLOCK], sums: &mut [u64], joined: impl Fn(u64, u64) -> u64) {
    let n = sums.len();
    let [a, b, c, d] = four.map(|(weight, row)| (weight, &row[..n]));
    for j in 0..n {
        let part = |row: (u32, &[u64])| product(row.0, &row.1[j]);
        sums[j] = joined(sums[j], part(a) + part(b) + part(c) + part(d));
    }
}

// ------------------------------------------------------------------- Keys

/// Value and amount as one number: the larger key is the larger value and, at a tie, the
/// smaller amount. A stored sum plus the key of cash and amount is the key of that choice.
fn key(value: u64, amount: usize) -> u64 {
    SPAN * value + (SPAN - 1 - amount as u64)
}

/// The plainest x86-64 compares no 64-bit numbers side by side, and keys are far below 2^63,
/// so the sign of the difference tells. To take back a negative difference costs fewer
/// instructions than to pick one of the two.
fn larger(held: u64, other: u64) -> u64 {
    let difference = held.wrapping_sub(other);
    let negative = (difference as i64 >> 63) as u64;
    held.wrapping_sub(difference & negative)
}

/// Offers states the choice of one cash and amount, whose key is given, with its sums.
fn offer(states: &mut [u64], sums: &[u64], key: u64) {
    for (held, sum) in states.iter_mut().zip(sums) {
        *held = larger(*held, key + sum);
    }
}

/// Leaves the values of a row of keys and stores their amounts, if there is a place for them.
fn take_apart(row: &mut [u64], amounts: &mut [u16]) {
    if amounts.is_empty() {
        for key in row {
            *key /= SPAN;
        }
        return;
    }
    for (key, amount) in row.iter_mut().zip(amounts) {
        // SPAN - 1 less the remainder, by bits.
        *amount = !(*key as u16) % SPAN as u16;
        *key /= SPAN;
    }
}

// ----------------------------------------------- Step 2: static and mixed

/// Fills a row from each state's m and the sum after withdrawing it. Below the level m is the
/// guarantee itself and none is left; from the level on it is the level, and the row of one
/// balance is read in order.
fn fill_by_m(
    terms: &Terms,
    expected: &[u64],
    account: usize,
    row: &mut [u64],
    filled: impl Fn(usize, u64) -> u64,
) {
    let (stride, level) = (terms.stride(), terms.level);
    for m in 0..level {
        row[m] = filled(m, expected[account.saturating_sub(m) * stride]);
    }
    let after = account.saturating_sub(level) * stride;
    for (state, e) in row[level..].iter_mut().zip(&expected[after..]) {
        *state = filled(level, *e);
    }
}

/// Every state withdraws m; there is no choice, so no key either. Here and below `decided` is
/// given the values of each account, which no other account reads any more.
fn decide_static(
    terms: &Terms,
    values: &mut [u64],
    expected: &[u64],
    amounts: &mut [u16],
    decided: impl Fn(usize, &mut [u64]),
) {
    let (stride, level) = (terms.stride(), terms.level);
    for (account, row) in values.chunks_exact_mut(stride).enumerate() {
        let value = |m, e| UNIT * m as u64 + e / SPAN;
        fill_by_m(terms, expected, account, row, value);
        let drawn = part(amounts, account, stride);
        let (below, from_level) = drawn.split_at_mut(level.min(drawn.len()));
        for (m, amount) in below.iter_mut().enumerate() {
            *amount = m as u16;
        }
        from_level.fill(level as u16);
        decided(account, row);
    }
}

/// The key of withdrawing m, or that of surrender where it is open and larger.
fn decide_mixed(
    terms: &Terms,
    net: u64,
    values: &mut [u64],
    expected: &[u64],
    amounts: &mut [u16],
    decided: impl Fn(usize, &mut [u64]),
) {
    let (stride, level) = (terms.stride(), terms.level);
    let surrender = |account: usize, m: usize| {
        let cash = UNIT * m as u64 + net * (account - m) as u64;
        key(cash, account) + expected[0]
    };
    for (account, row) in values.chunks_exact_mut(stride).enumerate() {
        let withdrawal = |m, e| key(UNIT * m as u64, m) + e;
        fill_by_m(terms, expected, account, row, withdrawal);
        for m in 0..account.min(level) {
            row[m] = larger(row[m], surrender(account, m));
        }
        if account > level {
            let other = surrender(account, level);
            for held in &mut row[level..] {
                *held = larger(*held, other);
            }
        }
        take_apart(row, part(amounts, account, stride));
        decided(account, row);
    }
}

// ------------------------------------------------------- Step 2: dynamic

/// Rows go from top downwards: the best of withdrawing further stands in the first layer, and
/// a row looks only at rows below it, so it is decided in the place of its own.
fn decide_dynamic(
    terms: &Terms,
    net: u64,
    values: &mut [u64],
    expected: &[u64],
    amounts: &mut [u16],
    decided: impl Fn(usize, &mut [u64]),
) {
    let stride = terms.stride();
    let rising = rows_rise(terms, expected);
    fill_further(terms, net, values, expected);
    for account in (0..=terms.top).rev() {
        let (below, row) = values.split_at_mut(account * stride);
        let row = &mut row[..stride];
        try_up_to_level(terms, expected, account, row);
        try_above_level(terms, net, below, account, row);
        try_above_level_reset(terms, net, expected, account, rising, row);
        take_apart(row, part(amounts, account, stride));
        decided(account, row);
    }
}

/// Whether no sum falls as the guarantee rises. A fall sets the highest bit of a difference;
/// a row is gone through to its end, since an early way out would not be widened.
fn rows_rise(terms: &Terms, expected: &[u64]) -> bool {
    let mut rows = expected.chunks_exact(terms.stride());
    rows.all(|row| {
        let steps = row.iter().zip(&row[1..]);
        let bits = steps.fold(0, |bits, (e, next)| bits | next.wrapping_sub(*e));
        bits >> 63 == 0
    })
}

/// P(b, a) = max(8,192 × E(b, a) + b, 8,192 × net + P(b − 1, a − 1 held at 0)): the best of
/// withdrawing any number of units at net cash, each taking one from balance and guarantee.
/// What is left of the balance stands for the amount, the more left the smaller it is, so
/// that nothing is subtracted for a unit. Only a ≤ b is looked at later.
fn fill_further(terms: &Terms, net: u64, values: &mut [u64], expected: &[u64]) {
    let stride = terms.stride();
    values[..stride].copy_from_slice(&expected[..stride]);
    for balance in 1..=terms.top {
        let (below, here) = values.split_at_mut(balance * stride);
        let below = &below[(balance - 1) * stride..];
        let kept = &expected[balance * stride..][..stride];
        let left = balance as u64;
        here[0] = larger(kept[0] + left, SPAN * net + below[0]);
        for ((best, e), p) in here[1..].iter_mut().zip(&kept[1..]).zip(below) {
            *best = larger(e + left, SPAN * net + p);
        }
    }
}

/// Amounts 0 to m: the guarantee falls by the amount, the balance too, held at 0. Amount t is
/// open from guarantee t on.
fn try_up_to_level(terms: &Terms, expected: &[u64], account: usize, row: &mut [u64]) {
    let stride = terms.stride();
    let kept = |t: usize| &expected[account.saturating_sub(t) * stride..][..stride - t];
    for (held, e) in row.iter_mut().zip(kept(0)) {
        *held = key(0, 0) + e;
    }
    for t in 1..=terms.level {
        offer(&mut row[t..], kept(t), key(UNIT * t as u64, t));
    }
}

/// Amounts above m where the account is at least the guarantee: one more than m, then the
/// best of withdrawing further from there. The key is that of the whole account, and what is
/// left of the balance makes it that of the amount.
fn try_above_level(terms: &Terms, net: u64, below: &[u64], account: usize, row: &mut [u64]) {
    let (stride, level) = (terms.stride(), terms.level);
    let more = |m: usize| key(UNIT * m as u64 + net, account);
    // Up to the level m is the guarantee itself, and none is left.
    for m in 0..account.min(level + 1) {
        row[m] = larger(row[m], more(m) + below[(account - m - 1) * stride]);
    }
    if account > level {
        let further = &below[(account - level - 1) * stride..];
        let end = account.min(terms.premium);
        offer(&mut row[level + 1..=end], further, more(level));
    }
}

/// Amounts above m where the account is between m and the guarantee. The guarantee is above
/// the level there, so m is the level, and the guarantee after is A × b / W rounded down, b
/// being the balance after.
///
/// That quotient is A × b × inverse / 2^40 rounded down, with inverse = 2^40 / W rounded up:
/// the rounding adds less than A × b / 2^40, which is below 1 / W, and A × b / W lies at least
/// 1 / W below the next whole number.
///
/// Most amounts are passed over by runs of states: where rows rise, no state of a run is offered
/// more than its last, and none gains if that is not above the least key of the run. A run that
/// gains is looked at again in parts, each by its own least key.
fn try_above_level_reset(
    terms: &Terms,
    net: u64,
    expected: &[u64],
    account: usize,
    rising: bool,
    row: &mut [u64],
) {
    let (stride, level) = (terms.stride(), terms.level);
    if account <= level || account >= terms.premium {
        return;
    }
    let inverse = (1_u64 << 40).div_ceil(account as u64);
    let balances = &expected[..(account - level) * stride];
    let mut low = account as u64 + 1;
    for run in row[account + 1..].chunks_mut(RUN) {
        let end = low + run.len() as u64;
        let leasts = least_keys(run, rising);
        let least = leasts.into_iter().fold(u64::MAX, u64::min);
        let mut share = (account - level) as u64 * inverse;
        let mut cash = key(UNIT * level as u64 + net, level + 1);
        for kept in balances.chunks_exact(stride).rev() {
            share -= inverse;
            if cash + kept[quotient((end - 1) * share)] > least {
                offer_parts(run, &leasts, kept, cash, low, share);
            }
            // One unit more.
            cash = cash + SPAN * net - 1;
        }
        low = end;
    }
}

/// The least key of each part of a run. Where rows may fall nothing is passed over: every key is
/// above 0.
fn least_keys(run: &[u64], rising: bool) -> [u64; RUN / PART] {
    let mut leasts = [u64::MAX; RUN / PART];
    for (least, part) in leasts.iter_mut().zip(run.chunks(PART)) {
        *least = part.iter().copied().min().filter(|_| rising).unwrap_or(0);
    }
    leasts
}

/// Offers the parts of a run an amount, from guarantee `low` on. There are always as many parts,
/// so that the loop is unrolled and each one's branch is foreseen by itself.
fn offer_parts(
    run: &mut [u64],
    leasts: &[u64; RUN / PART],
    kept: &[u64],
    key: u64,
    low: u64,
    share: u64,
) {
    for (p, least) in leasts.iter().enumerate() {
        let from = p * PART;
        if from < run.len() {
            let end = run.len().min(from + PART);
            if key + kept[quotient((low + end as u64 - 1) * share)] > *least {
                offer_shares(&mut run[from..end], kept, key, low + from as u64, share);
            }
        }
    }
}

fn quotient(product: u64) -> usize {
    (product >> 40) as usize
}

/// Offers states, from guarantee `low` on, an amount that leaves each the given share of its
/// guarantee. A branch here: this loop looks up single sums and is not widened, and the
/// branch is seldom mistaken.
fn offer_shares(states: &mut [u64], kept: &[u64], key: u64, low: u64, share: u64) {
    let mut product = low * share;
    for held in states {
        let other = key + kept[quotient(product)];
        if other > *held {
            *held = other;
        }
        product += share;
    }
}

// ---------------------------------------------------- The search for a fee

/// Searches for the smallest fee whose value is at most the one wanted; the checks and the answer
/// are those of second/gmwb.rs.
pub fn fee(
    record: &[u8],
    list: &[u8],
    rates: &[u8],
    behaviour: u64,
    wanted: u64,
    work: &mut [u64],
) -> Found {
    let result = try_fee(record, list, rates, behaviour, wanted, work);
    Found {
        valued: told(result.map(|(_, figures)| figures)),
        fee: result.map_or(0, |(fee, _)| fee),
    }
}

/// Gives fee, value and margin.
fn try_fee(
    record: &[u8],
    list: &[u8],
    rates: &[u8],
    behaviour: u64,
    wanted: u64,
    work: &mut [u64],
) -> Result<(u64, (u64, i64)), Refusal> {
    let mut contract = read_contract(record, list, rates, behaviour, work)?;
    let found = smallest_fee(&mut contract, behaviour, wanted, work);
    work[..2 * contract.terms.layer()].fill(0);
    found.ok_or((19, 0))
}

/// By halves, since a larger fee never gives a larger value: below `low` every fee gives more than
/// wanted, and from `high` on none does. What is left is cut by a power of two from the top: at most
/// 14 valuations, and fewer for small fees, whose valuations also take less.
fn smallest_fee(
    contract: &mut Contract,
    behaviour: u64,
    wanted: u64,
    work: &mut [u64],
) -> Option<(u64, (u64, i64))> {
    let (mut low, mut high, mut found) = (0, UNIT + 1, None);
    while low < high {
        let fee = high - (1 << (high - low).ilog2());
        contract.terms.fee = fee;
        let figures = fill_dates(contract, behaviour, work, &mut []);
        if figures.0 <= wanted {
            high = fee;
            found = Some((fee, figures));
        } else {
            low = fee + 1;
        }
    }
    found
}

// ---------------------------------------------------- The map of surrender

/// Fills the map's words from the table and gives the number of set bits. A row of the table
/// becomes flags, one byte of 0 or 1 for each entry, behind those left from the rows before;
/// 64 flags become a word. A W above the level is above m in its whole row, another where the
/// guarantee is below W.
fn fill_map(terms: &Terms, table: &[u16], map: &mut [u64]) -> u64 {
    let (stride, level) = (terms.stride(), terms.level);
    let mut flags = vec![0; stride + 64];
    let (mut left, mut filled) = (0, 0);
    let accounts = (0..=terms.top).cycle();
    for (row, account) in table.chunks_exact(stride).zip(accounts) {
        let open = if account > level { stride } else { account };
        let end = left + stride;
        flag_row(&row[..open], account as u16, &mut flags[left..end]);
        let whole = end - end % 64;
        for flags in flags[..whole].chunks_exact(64) {
            map[filled] = packed(flags);
            filled += 1;
        }
        flags.copy_within(whole..end, 0);
        left = end - whole;
    }
    if left > 0 {
        flags[left..64].fill(0);
        map[filled] = packed(&flags[..64]);
        filled += 1;
    }
    let ones = map[..filled].iter().map(|word| word.count_ones());
    ones.map(u64::from).sum()
}

/// The flags of a row: of the amounts given, where they equal the account; of the rest, 0.
fn flag_row(amounts: &[u16], account: u16, flags: &mut [u8]) {
    let (open, closed) = flags.split_at_mut(amounts.len());
    for (flag, amount) in open.iter_mut().zip(amounts) {
        *flag = u8::from(*amount == account);
    }
    closed.fill(0);
}

/// 64 flags as a word, the first as the lowest bit. The product moves the flag in byte i of
/// eight to bit 56 + i.
fn packed(flags: &[u8]) -> u64 {
    let (eights, _) = flags.as_chunks();
    let mut word = 0;
    for (i, eight) in eights.iter().enumerate() {
        let bits = u64::from_le_bytes(*eight).wrapping_mul(0x0102_0408_1020_4080) >> 56;
        word |= bits << (8 * i);
    }
    word
}
