//! `second script`: the script of the test program, the same on every run.
//!
//! Its parts, each headed in the script by a line that starts with `#`: the cases of
//! document 01, penalty rates that fall, the ends of every range, every refusal alone and
//! with the checks behind it failing too, every count of dates, slices of every length
//! that matters, and random contracts, whole and damaged. Maps of surrender follow, in
//! parts of the same kinds, then returns that lift an account above top, then payment at
//! death, then searches for a fee, then lists whose returns lead to the same accounts, then sizes
//! of slices and valuations without a table. Random contracts have death rates of every kind;
//! where a part is about something else, the rates are zero.
//!
//! The second program tries fee after fee, so the contracts searched are small, or a small fee
//! is found.
//!
//! The test program has room for records of 64 bytes, lists of 512, rates of 128, 64 return
//! numbers, 64 bytes of a buffer, 65,536 numbers of a working slice or of cash, 65,536
//! amounts of a table, and 2,048 words of a map (65,536 amounts need 1,024). Nothing here
//! asks for more.

use crate::gmwb;
use crate::script::MOD_64;
use crate::terms::{list, rate_list, Return, Terms, P, P_RETURNS, Q};
use std::fmt::Write;

impl Terms {
    fn work(self) -> usize {
        2 * self.layer()
    }

    fn table(self) -> usize {
        usize::from(self.dates).saturating_sub(1) * self.layer()
    }

    /// The words of a map.
    fn map(self) -> usize {
        self.table().div_ceil(64)
    }

    /// The end of the dynamic set of the state that has entry `entry` of a layer.
    fn largest(self, entry: usize) -> usize {
        let row = usize::from(self.premium) + 1;
        let m = usize::from(self.level).min(entry % row);
        (entry / row).max(m)
    }
}

fn hex(bytes: &[u8]) -> String {
    if bytes.is_empty() {
        return "-".to_string();
    }
    bytes.iter().map(|b| format!("{b:02x}")).collect()
}

fn listed(entries: &[u16]) -> String {
    if entries.is_empty() {
        return "-".to_string();
    }
    let words: Vec<String> = entries.iter().map(u16::to_string).collect();
    words.join(",")
}

/// A generator of its own, the same on every run.
struct Draw(u64);

impl Draw {
    /// Any number of 64 bits.
    fn any(&mut self) -> u64 {
        self.0 = self.0.wrapping_mul(6_364_136_223_846_793_005);
        self.0 = self.0.wrapping_add(1_442_695_040_888_963_407);
        self.0
    }

    /// A number from 0 to `most`.
    fn upto(&mut self, most: usize) -> usize {
        (self.any() >> 33) as usize % (most + 1)
    }

    fn one<T: Copy>(&mut self, of: &[T]) -> T {
        of[self.upto(of.len() - 1)]
    }

    /// LEN:SEED, with some seed.
    fn filled(&mut self, length: usize) -> String {
        format!("{length}:{}", self.upto(99_999))
    }

    /// The same for a working slice or cash, whose entries are then above 2^32.
    fn filled_64(&mut self, length: usize) -> String {
        format!("{length}:{}", self.any())
    }

    /// The same for a map: nearly all bits of the first word set, the upper 40 bits of 1,200
    /// words, none, or any.
    fn filled_map(&mut self, length: usize) -> String {
        let seed = self.0;
        match (length, self.upto(3)) {
            (0, _) => "-".to_string(),
            (_, 0) => format!("{length}:{}", MOD_64 - 1),
            (_, 1) => format!("{length}:{}", MOD_64 - 10_000_000),
            (_, 2) => format!("{length}:{seed}:1"),
            _ => format!("{length}:{seed}"),
        }
    }

    fn terms(&mut self, most_top: usize, most_dates: usize) -> Terms {
        let top = 1 + self.upto(most_top - 1);
        let premium = 1 + self.upto(top - 1);
        let some = self.upto(9_999) as u16;
        let dates = 1 + self.upto(most_dates - 1) as u16;
        let penalty = self.one(&[0, 500, 1_000, some / 5, some, 10_000]);
        let steps = [
            0,
            0,
            1,
            some / 20,
            some,
            10_000,
            penalty / 3,
            penalty / dates,
        ];
        Terms {
            premium: premium as u16,
            level: 1 + self.upto(premium - 1) as u16,
            top: top as u16,
            dates,
            fee: self.one(&[0, 0, 1, 50, 150, 200, 350, some / 10, some, 10_000]),
            penalty,
            discount: match self.upto(14) {
                0 => 1,
                1 => 1 + 100 * u32::from(some),
                2..=7 => 1_000_000 - 10 * u32::from(some),
                _ => 1_000_000,
            },
            step: self.one(&steps),
            spare: 0,
        }
    }

    /// A contract with two decision dates or more, whose rate falls: to zero on the last of
    /// them by the step `last`, sooner or never by the others.
    fn falling(&mut self, most_top: usize, most_dates: usize) -> Terms {
        let terms = self.terms(most_top, most_dates - 2);
        let dates = terms.dates + 2;
        let penalty = terms.penalty.max(self.one(&[500, 800, 1_000]));
        let last = penalty.div_ceil(dates - 2);
        Terms {
            dates,
            penalty,
            step: self.one(&[1, penalty / dates, last, last, penalty / 2, penalty]),
            ..terms
        }
    }

    /// `count` returns whose weights add to 10,000.
    fn returns(&mut self, count: usize) -> Vec<Return> {
        let mut left = 10_000;
        let mut returns = Vec::new();
        for k in 1..=count {
            let behind = count - k;
            let weight = match behind {
                0 => left,
                _ => 1 + self.upto((left - behind).min(2 * left / (behind + 1)) - 1),
            };
            left -= weight;
            let around = 5_000 + self.upto(10_000);
            let factor = self.one(&[around, around, around, self.0 as usize % 30_001, 0, 30_000]);
            returns.push((factor as u16, weight as u16));
        }
        returns
    }

    /// A contract whose premium is near top.
    fn near_top(&mut self, most_top: usize, most_dates: usize) -> Terms {
        let terms = self.terms(most_top, most_dates);
        let near = terms.top - self.upto(usize::from(terms.top) / 3) as u16;
        Terms {
            premium: terms.premium.max(near),
            ..terms
        }
    }

    /// Returns of which most lift, up to three times.
    fn lifting(&mut self, count: usize) -> Vec<Return> {
        let mut returns = self.returns(count);
        for (factor, _) in &mut returns {
            let lift = 10_000 + self.upto(20_000) as u16;
            *factor = self.one(&[lift, lift, 10_000, 20_000, 30_000, *factor]);
        }
        returns
    }

    /// Accepted death rates: none or few, small ones or any, some of them at an end of the
    /// range or next to it.
    fn rates(&mut self, dates: u16) -> Vec<u16> {
        let most = self.one(&[0, 300, 3_000, 10_000]);
        let mut rates = Vec::new();
        for _ in 0..dates {
            let rate = self.upto(most) as u16;
            let end = self.one(&[0, 1, 9_999, 10_000]);
            rates.push(if self.upto(6) == 0 { end } else { rate });
        }
        rates
    }

    /// Up to `most` returns, and death rates for so many dates.
    fn lists(&mut self, most: usize, dates: u16) -> (Vec<Return>, Vec<u16>) {
        let count = 1 + self.upto(most - 1);
        (self.returns(count), self.rates(dates))
    }

    fn shuffled(&mut self, returns: &[Return]) -> Vec<Return> {
        let mut shuffled = returns.to_vec();
        for last in (1..shuffled.len()).rev() {
            shuffled.swap(last, self.upto(last));
        }
        shuffled
    }

    /// A path: N return numbers, each of a list of `count`.
    fn path(&mut self, dates: u16, count: usize) -> String {
        let numbers: Vec<u16> = (0..dates).map(|_| self.upto(count - 1) as u16).collect();
        if self.upto(3) == 0 {
            return format!("{dates}:{}:{count}", self.upto(65_520));
        }
        listed(&numbers)
    }
}

/// The script as it grows.
struct Script {
    text: String,
    draw: Draw,
    /// The death rates of the valuations to come; none stands for zero rates.
    rates: Option<Vec<u16>>,
}

impl Script {
    /// What `write` adds, its valuations with these death rates.
    fn with_rates(&mut self, rates: &[u16], write: impl FnOnce(&mut Script)) {
        self.rates = Some(rates.to_vec());
        write(self);
        self.rates = None;
    }

    /// Record, list and rates of a valuation. A count of dates that is refused may pass the
    /// room for rates.
    fn bytes(&self, terms: Terms, returns: &[Return]) -> String {
        let mut rates = self.rates.clone().unwrap_or(terms.zero_rates());
        rates.truncate(64);
        let (record, list) = (hex(&terms.record()), hex(&list(returns)));
        format!("{record} {list} {}", hex(&rate_list(&rates)))
    }

    fn part(&mut self, name: &str) {
        writeln!(self.text, "# {name}").unwrap();
    }

    fn check(&mut self, record: &[u8]) {
        writeln!(self.text, "check {}", hex(record)).unwrap();
    }

    fn value(
        &mut self,
        terms: Terms,
        returns: &[Return],
        behaviour: u64,
        work: usize,
        table: usize,
    ) {
        let bytes = self.bytes(terms, returns);
        let (work, table) = (self.draw.filled_64(work), self.draw.filled(table));
        writeln!(self.text, "value {bytes} {behaviour} {work} {table}").unwrap();
    }

    /// A valuation with a map, the table just long enough.
    fn value_map(
        &mut self,
        terms: Terms,
        returns: &[Return],
        behaviour: u64,
        work: usize,
        map: usize,
    ) {
        let bytes = self.bytes(terms, returns);
        let work = self.draw.filled_64(work);
        let table = self.draw.filled(terms.table());
        let map = self.draw.filled_map(map);
        writeln!(
            self.text,
            "value_map {bytes} {behaviour} {work} {table} {map}"
        )
        .unwrap();
    }

    fn sizes(&mut self, record: &[u8]) {
        writeln!(self.text, "sizes {}", hex(record)).unwrap();
    }

    fn value_no_table(&mut self, terms: Terms, returns: &[Return], behaviour: u64, work: usize) {
        let (bytes, work) = (self.bytes(terms, returns), self.draw.filled_64(work));
        writeln!(self.text, "value_no_table {bytes} {behaviour} {work}").unwrap();
    }

    /// A valuation and the same one without a table, their working slices alike.
    fn beside(
        &mut self,
        terms: Terms,
        returns: &[Return],
        behaviour: u64,
        work: usize,
        table: usize,
    ) {
        let bytes = self.bytes(terms, returns);
        let (work, table) = (self.draw.filled_64(work), self.draw.filled(table));
        writeln!(self.text, "value {bytes} {behaviour} {work} {table}").unwrap();
        writeln!(self.text, "value_no_table {bytes} {behaviour} {work}").unwrap();
    }

    /// Under each behaviour, slices just long enough.
    fn all_beside(&mut self, terms: Terms, returns: &[Return]) {
        for behaviour in 0..3 {
            self.beside(terms, returns, behaviour, terms.work(), terms.table());
        }
    }

    fn fee(&mut self, terms: Terms, returns: &[Return], behaviour: u64, wanted: u64, work: usize) {
        let (bytes, work) = (self.bytes(terms, returns), self.draw.filled_64(work));
        writeln!(self.text, "fee {bytes} {behaviour} {wanted} {work}").unwrap();
    }

    fn value_table(&mut self, terms: Terms, returns: &[Return], work: usize, table: &str) {
        let (bytes, work) = (self.bytes(terms, returns), self.draw.filled_64(work));
        writeln!(self.text, "value_table {bytes} {work} {table}").unwrap();
    }

    fn book(&mut self, terms: Terms, state: [usize; 4], buffer: usize) {
        let (record, buffer) = (hex(&terms.record()), self.draw.filled(buffer));
        let [date, account, guarantee, amount] = state;
        writeln!(
            self.text,
            "book {record} {date} {account} {guarantee} {amount} {buffer}"
        )
        .unwrap();
    }

    fn walk(&mut self, terms: Terms, returns: &[Return], table: &str, path: &str, cash: usize) {
        let (record, list) = (hex(&terms.record()), hex(&list(returns)));
        let cash = self.draw.filled_64(cash);
        writeln!(self.text, "walk {record} {list} {table} {path} {cash}").unwrap();
    }

    /// A valuation with slices just long enough, its table supplied back, and walks.
    fn valued_and_walked(&mut self, terms: Terms, returns: &[Return], behaviour: u64) {
        self.value(terms, returns, behaviour, terms.work(), terms.table());
        self.value_table(terms, returns, terms.work(), "=");
        let path = self.draw.path(terms.dates, returns.len());
        self.walk(terms, returns, "=", &path, usize::from(terms.dates));
    }
}

// ------------------------------------------------------- Cases of document 01

fn unmarked(s: &mut Script) {
    s.part("Document 01, unmarked: top 4,000 passes, 4,001 is 2.");
    for top in [4_000, 4_001] {
        s.check(&Terms { top, ..P }.record());
        s.book(Terms { top, ..P }, [1, 4_000, 10, 4_000], 16);
    }
    s.part("Document 01, unmarked: factor 30,000 passes, 30,001 is 8.");
    for factor in [30_000, 30_001] {
        for place in 0..2 {
            let mut returns = P_RETURNS;
            returns[place].0 = factor;
            for behaviour in 0..3 {
                s.value(P, &returns, behaviour, P.work(), P.table());
            }
            s.value_table(P, &returns, P.work(), "231:0:1");
            s.walk(P, &returns, "231:0:1", "1,0", 2);
        }
    }
    s.part("Document 01, unmarked: a table one entry short is 11.");
    for table in [231, 230] {
        s.value(P, &P_RETURNS, 2, P.work(), table);
        s.value_table(P, &P_RETURNS, P.work(), &format!("{table}:0:1"));
        s.walk(P, &P_RETURNS, &format!("{table}:0:1"), "1,0", 2);
    }
}

fn worked_by_hand(s: &mut Script) {
    s.part("Contracts P and Q of document 01, also with N 1, N 3 and a discount of 950,000.");
    for base in [P, Q] {
        let discount = 950_000;
        for terms in [
            base,
            Terms { dates: 1, ..base },
            Terms { dates: 3, ..base },
            Terms { discount, ..base },
        ] {
            for behaviour in 0..3 {
                s.valued_and_walked(terms, &P_RETURNS, behaviour);
            }
        }
    }
    s.part("Walks of P along every path, by each of its tables.");
    for behaviour in 0..3 {
        s.value(P, &P_RETURNS, behaviour, P.work(), P.table());
        for path in ["0,0", "0,1", "1,0", "1,1"] {
            s.walk(P, &P_RETURNS, "=", path, 2);
        }
    }
    s.part("Bookings of every amount at (15, 10) and (5, 10) of P, and of Q.");
    for terms in [P, Q] {
        for amount in 0..=16 {
            s.book(terms, [1, 15, 10, amount], 16);
        }
        for amount in 0..=7 {
            s.book(terms, [1, 5, 10, amount], 16);
        }
    }
}

// ----------------------------------- Document 02, request (i): falling penalty rates

fn falling_rates(s: &mut Script) {
    s.part("Document 02, request (i): P with N 4 and steps 0, 100 and 1,000, valued, supplied back, walked along every path.");
    for step in [0, 100, 1_000] {
        let terms = Terms {
            dates: 4,
            step,
            ..P
        };
        for behaviour in 0..3 {
            s.valued_and_walked(terms, &P_RETURNS, behaviour);
            for path in 0..16 {
                let numbers = [path / 8, path / 4 % 2, path / 2 % 2, path % 2];
                s.walk(terms, &P_RETURNS, "=", &listed(&numbers), 4);
            }
        }
    }
    s.part("Document 02, request (i): bookings of P with N 4 and these steps at (15, 10), on every date.");
    for step in [0, 100, 1_000] {
        let terms = Terms {
            dates: 4,
            step,
            ..P
        };
        for date in 0..=4 {
            for amount in [5, 6, 15] {
                s.book(terms, [date, 15, 10, amount], 16);
            }
        }
    }
}

/// Penalty rates and steps: the rate reaches zero on a date, between two dates or on none. With 16
/// bits 8 × 8,192 would be 0 again.
const PENALTIES: [(u16, u16); 8] = [
    (1_000, 199),
    (1_000, 200),
    (1_000, 201),
    (1_000, 1_000),
    (10_000, 263),
    (10_000, 264),
    (10_000, 8_192),
    (10_000, 10_000),
];

/// A table of zeros, then one that draws 20 on a date at (20, 10), whose entry is the last of
/// the layer. The second of P's returns leads there on every date after the first.
fn draw_on(s: &mut Script, terms: Terms, date: usize) {
    let zeros = format!("{}:0:1", terms.table());
    s.value_table(terms, &P_RETURNS, terms.work(), &zeros);
    let entry = date * terms.layer() - 1;
    s.value_table(terms, &P_RETURNS, terms.work(), &format!("={entry}:20"));
    let path = vec![1; terms.dates.into()];
    s.walk(terms, &P_RETURNS, "=", &listed(&path), terms.dates.into());
}

fn rates_at_zero(s: &mut Script) {
    s.part("Penalty rates that reach zero on a date, between two or never: bookings on every date of P with N 40.");
    for (penalty, step) in PENALTIES {
        let terms = Terms {
            dates: 40,
            penalty,
            step,
            ..P
        };
        for date in 1..40 {
            s.book(terms, [date, 20, 10, 20], 16);
        }
    }
    s.part("These penalty rates: P with N 8 valued; tables that draw 20 at (20, 10) on one date, supplied and walked.");
    for (penalty, step) in PENALTIES {
        let terms = Terms {
            dates: 8,
            penalty,
            step,
            ..P
        };
        for behaviour in 0..3 {
            s.valued_and_walked(terms, &P_RETURNS, behaviour);
        }
        for date in 2..8 {
            draw_on(s, terms, date);
        }
    }
}

// ------------------------------------------------------------ Ends of ranges

/// P with each field in turn at the ends of its range and beyond.
fn fields_at_ends() -> Vec<Terms> {
    let mut all = Vec::new();
    all.extend([0, 1, 19, 20, 21, 65_535].map(|premium| Terms {
        premium,
        level: 1,
        ..P
    }));
    all.extend([0, 1, 9, 10, 11, 65_535].map(|level| Terms { level, ..P }));
    all.extend([0, 1, 9, 10, 11, 3_999, 4_000, 4_001, 65_535].map(|top| Terms { top, ..P }));
    all.extend([0, 1, 2, 39, 40, 41, 65_535].map(|dates| Terms { dates, ..P }));
    all.extend([0, 1, 9_999, 10_000, 10_001, 65_535].map(|fee| Terms { fee, ..P }));
    all.extend([0, 1, 9_999, 10_000, 10_001, 65_535].map(|penalty| Terms { penalty, ..P }));
    let discounts = [0, 1, 2, 999_999, 1_000_000, 1_000_001, 16_777_216, u32::MAX];
    all.extend(discounts.map(|discount| Terms { discount, ..P }));
    let steps = [0, 1, 9_999, 10_000, 10_001, 65_535];
    all.extend(steps.map(|step| Terms {
        dates: 4,
        step,
        ..P
    }));
    all.extend([1, 255, 256, 257, 65_535].map(|spare| Terms { spare, ..P }));
    all
}

fn ends_of_fields(s: &mut Script) {
    s.part("Each field of the record at the ends of its range and beyond.");
    for terms in fields_at_ends() {
        s.check(&terms.record());
        s.book(terms, [1, 15, 10, 6], 16);
        let room = terms.work() <= 65_536 && terms.table() <= 65_536;
        let (work, table) = if room {
            (terms.work(), terms.table())
        } else {
            (P.work(), P.table())
        };
        for behaviour in 0..3 {
            s.value(terms, &P_RETURNS, behaviour, work, table);
        }
        s.value_table(terms, &P_RETURNS, work, &format!("{table}:0:1"));
        let path = s.draw.path(terms.dates.clamp(1, 40), 2);
        s.walk(terms, &P_RETURNS, &format!("{table}:0:1"), &path, 40);
    }
}

fn lengths_of_bytes(s: &mut Script) {
    s.part("Records of 0 to 24 bytes, of 40 and of 64.");
    for length in (0..=24).chain([40, 64]) {
        let mut record = P.record();
        record.resize(length, 0);
        s.check(&record);
        let (record, buffer) = (hex(&record), s.draw.filled(16));
        writeln!(s.text, "book {record} 1 15 10 6 {buffer}").unwrap();
    }
    s.part("Lists of 0 to 9 bytes and of 252 to 261.");
    for length in (0..=9).chain(252..=261) {
        let count = usize::max(1, length / 4);
        let mut list = list(&s.draw.returns(count));
        list.resize(length, 1);
        let (record, list) = (hex(&P.record()), hex(&list));
        let rates = hex(&rate_list(&P.zero_rates()));
        writeln!(s.text, "value {record} {list} {rates} 2 462:1 231:1").unwrap();
        writeln!(s.text, "value_table {record} {list} {rates} 462:1 231:0:1").unwrap();
        writeln!(s.text, "walk {record} {list} 231:0:1 0,0 2:1").unwrap();
    }
}

fn ends_of_returns(s: &mut Script) {
    s.part("Factors and weights at the ends of their ranges and beyond, at every place of a list.");
    for factor in [0, 1, 29_999, 30_000, 30_001, 65_535] {
        for place in 0..3 {
            let mut returns = [(9_000, 2_000), (10_000, 6_000), (12_000, 2_000)];
            returns[place].0 = factor;
            let behaviour = s.draw.upto(2) as u64;
            s.valued_and_walked(P, &returns, behaviour);
        }
    }
    for weight in [0, 1, 9_999, 10_000, 10_001, 65_535] {
        for place in 0..2 {
            let mut returns = P_RETURNS;
            returns[place].1 = weight;
            returns[1 - place].1 = 10_000_u16.saturating_sub(weight).max(1);
            let behaviour = s.draw.upto(2) as u64;
            s.valued_and_walked(P, &returns, behaviour);
        }
    }
    s.part("A single return of weight 10,000; equal factors; 64 returns, 63 of them of weight 1.");
    let mut many = vec![(9_500, 1); 63];
    many.push((10_500, 9_937));
    for returns in [
        vec![(10_000, 10_000)],
        vec![(0, 10_000)],
        vec![(30_000, 10_000)],
        vec![(11_000, 5_000), (11_000, 5_000)],
        vec![(7_000, 1), (7_000, 9_998), (7_000, 1)],
        many,
    ] {
        for behaviour in 0..3 {
            s.valued_and_walked(P, &returns, behaviour);
        }
    }
}

// ---------------------------------------------------------------- Refusals

/// An operation whose parts can be spoilt one by one, check by check.
struct Parts {
    record: Vec<u8>,
    terms: Terms,
    list: Vec<u8>,
    rates: Vec<u8>,
    behaviour: u64,
    wanted: u64,
    work: usize,
    table: Vec<u16>,
    map: usize,
    numbers: Vec<u16>,
    cash: usize,
    state: [u64; 4],
    buffer: usize,
}

/// An operation that every check lets through: at least 2 dates and 2 returns.
fn whole(draw: &mut Draw, most_top: usize, most_dates: usize) -> (Terms, Parts) {
    let mut terms = draw.terms(most_top, most_dates - 1);
    terms.dates += 1;
    let count = 2 + draw.upto(2);
    let returns = draw.returns(count);
    let table = (0..terms.table()).map(|i| draw.upto(terms.largest(i % terms.layer())) as u16);
    let table = table.collect();
    let numbers = (0..terms.dates).map(|_| draw.upto(count - 1) as u16);
    let numbers = numbers.collect();
    let (account, guarantee) = (draw.upto(terms.top.into()), draw.upto(terms.premium.into()));
    let entry = account * (usize::from(terms.premium) + 1) + guarantee;
    let amount = draw.upto(terms.largest(entry));
    let date = 1 + draw.upto(usize::from(terms.dates) - 2);
    let parts = Parts {
        record: terms.record(),
        terms,
        list: list(&returns),
        rates: rate_list(&draw.rates(terms.dates)),
        behaviour: draw.upto(2) as u64,
        wanted: u64::MAX,
        work: terms.work() + draw.upto(2),
        table,
        map: terms.map(),
        numbers,
        cash: usize::from(terms.dates) + draw.upto(2),
        state: [date, account, guarantee, amount].map(|x| x as u64),
        buffer: 16,
    };
    (terms, parts)
}

impl Parts {
    fn set(&mut self, offset: usize, value: u16) {
        self.record[offset..offset + 2].copy_from_slice(&value.to_le_bytes());
    }

    fn set_return(&mut self, offset: usize, value: u16) {
        self.list[offset..offset + 2].copy_from_slice(&value.to_le_bytes());
    }

    fn spoil_record(&mut self, number: u64, draw: &mut Draw) {
        match number {
            2 => match draw.upto(2) {
                0 => self.set(0, 0),
                1 => self.set(0, self.terms.top + 1),
                _ => self.set(4, draw.one(&[4_001, 4_002, 65_535])),
            },
            3 => self.set(2, draw.one(&[0, self.terms.premium + 1, 65_535])),
            4 => self.set(6, draw.one(&[0, 41, 42, 65_535])),
            5 => self.set(draw.one(&[8, 10]), draw.one(&[10_001, 20_000, 65_535])),
            6 => {
                let discount: u32 = draw.one(&[0, 1_000_001, 2_000_000, u32::MAX]);
                self.record[12..16].copy_from_slice(&discount.to_le_bytes());
            }
            _ => {
                let which = draw.upto(2);
                if which != 0 {
                    self.set(16, draw.one(&[10_001, 20_000, 65_535]));
                }
                if which != 1 {
                    self.set(18, draw.one(&[1, 128, 256, 257, 65_535]));
                }
            }
        }
    }

    fn spoil_list(&mut self, number: u64, draw: &mut Draw) {
        let place = 4 * draw.upto(self.list.len() / 4 - 1);
        match number {
            7 => match draw.upto(2) {
                0 => self.list.truncate(self.list.len() - 1),
                1 => self.list.push(0),
                _ => self.list.resize(260, 1),
            },
            8 => match draw.upto(2) {
                0 => self.set_return(place, draw.one(&[30_001, 40_000, 65_535])),
                1 => self.set_return(place + 2, 0),
                _ => self.set_return(place + 2, draw.one(&[10_001, 65_535])),
            },
            _ => {
                let weight = u16::from_le_bytes([self.list[place + 2], self.list[place + 3]]);
                let other = if weight > 1 { weight - 1 } else { weight + 1 };
                self.set_return(place + 2, other);
            }
        }
    }

    fn spoil_rates(&mut self, number: u64, draw: &mut Draw) {
        let length = self.rates.len();
        if number == 17 {
            let lengths = [0, 1, length - 2, length - 1, length + 1, length + 2, 80, 82];
            self.rates.resize(draw.one(&lengths), 0);
        } else {
            let rate: u16 = draw.one(&[10_001, 10_240, 65_535]);
            let place = 2 * draw.upto(length / 2 - 1);
            self.rates[place..place + 2].copy_from_slice(&rate.to_le_bytes());
        }
    }

    fn spoil_lent(&mut self, operation: &str, draw: &mut Draw) {
        match operation {
            "book" => self.buffer = draw.one(&[0, 1, 15, 17, 64]),
            "fee" | "value_no_table" => {
                self.work = draw.one(&[0, self.terms.layer(), self.terms.work() - 1]);
            }
            "walk" if draw.upto(1) == 0 => self.cash = usize::from(self.terms.dates) - 1,
            "walk" => self.table.truncate(self.terms.table() - 1),
            _ if draw.upto(1) == 0 => self.work = self.terms.work() - 1,
            _ => self.table.truncate(self.terms.table() - 1),
        }
    }

    fn spoil_path(&mut self, draw: &mut Draw) {
        let count = (self.list.len() / 4) as u16;
        let last = self.numbers.len() - 1;
        match draw.upto(3) {
            0 => self.numbers.truncate(last),
            1 => self.numbers.push(0),
            2 => self.numbers[last] = count,
            _ => self.numbers[last] = draw.one(&[count + 1, 64, 65_535]),
        }
    }

    /// Below what every fee gives. The discount is put right, so that there is something below.
    fn spoil_wanted(&mut self, draw: &mut Draw) {
        self.terms.discount = 1_000_000;
        self.record = self.terms.record();
        let rates = &self.rates;
        let least = worth_at(self.terms, &self.list, rates, self.behaviour, 10_000);
        self.wanted = draw.one(&[0, least / 2, least - 1]);
    }

    /// Spoils what check `number` looks at, and no more than that where it can be helped.
    fn spoil(&mut self, operation: &str, number: u64, draw: &mut Draw) {
        match number {
            1 => self.record.resize(draw.one(&[0, 1, 15, 16, 19, 21, 40]), 0),
            2..=6 | 15 => self.spoil_record(number, draw),
            7..=9 => self.spoil_list(number, draw),
            10 => self.behaviour = draw.one(&[3, 4, 255, 256, 65_536, u64::MAX]),
            11 => self.spoil_lent(operation, draw),
            12 => match draw.upto(3) {
                0 => self.state[0] = 0,
                1 => self.state[0] = u64::from(self.terms.dates),
                2 => self.state[1] = u64::from(self.terms.top) + 1,
                _ => self.state[2] = draw.one(&[u64::from(self.terms.premium) + 1, u64::MAX]),
            },
            13 => self.spoil_path(draw),
            17 | 18 => self.spoil_rates(number, draw),
            16 => self.map = draw.one(&[0, self.map - 1]),
            19 => self.spoil_wanted(draw),
            _ if operation == "book" => {
                let most = self.state[1].max(u64::from(self.terms.premium));
                self.state[3] = draw.one(&[most + 1, 65_536, u64::MAX].map(|x| x.max(most)));
            }
            _ if operation == "walk" => self.table.fill(draw.one(&[6, 4_001, 65_535])),
            _ => {
                let last = self.table.len() - 1;
                let entry = draw.upto(last);
                let most = self.terms.largest(entry % self.terms.layer());
                self.table[entry] = draw.one(&[most as u16 + 1, 65_535]);
            }
        }
    }

    fn line(&self, operation: &str, draw: &mut Draw) -> String {
        let (record, list) = (hex(&self.record), hex(&self.list));
        let (rates, behaviour) = (hex(&self.rates), self.behaviour);
        let (table, work) = (listed(&self.table), draw.filled_64(self.work));
        match operation {
            "check" => format!("check {record}"),
            "sizes" => format!("sizes {record}"),
            "value_no_table" => {
                format!("value_no_table {record} {list} {rates} {behaviour} {work}")
            }
            "value" => format!("value {record} {list} {rates} {behaviour} {work} {table}"),
            "value_map" => {
                let map = draw.filled_map(self.map);
                format!("value_map {record} {list} {rates} {behaviour} {work} {table} {map}")
            }
            "value_table" => format!("value_table {record} {list} {rates} {work} {table}"),
            "fee" => {
                let wanted = self.wanted;
                format!("fee {record} {list} {rates} {behaviour} {wanted} {work}")
            }
            "book" => {
                let [date, account, guarantee, amount] = self.state;
                let buffer = draw.filled(self.buffer);
                format!("book {record} {date} {account} {guarantee} {amount} {buffer}")
            }
            _ => {
                let (path, cash) = (listed(&self.numbers), draw.filled_64(self.cash));
                format!("walk {record} {list} {table} {path} {cash}")
            }
        }
    }
}

/// The operations, each with the numbers of its checks in their order.
pub const ORDERS: [(&str, &[u64]); 9] = [
    ("check", &[1, 2, 3, 4, 5, 6, 15]),
    ("value", &[1, 2, 3, 4, 5, 6, 15, 7, 8, 9, 17, 18, 10, 11]),
    (
        "value_table",
        &[1, 2, 3, 4, 5, 6, 15, 7, 8, 9, 17, 18, 11, 14],
    ),
    ("book", &[1, 2, 3, 4, 5, 6, 15, 11, 12, 14]),
    ("walk", &[1, 2, 3, 4, 5, 6, 15, 7, 8, 9, 11, 13, 14]),
    (
        "value_map",
        &[1, 2, 3, 4, 5, 6, 15, 7, 8, 9, 17, 18, 10, 11, 16],
    ),
    ("fee", &[1, 2, 3, 4, 5, 6, 15, 7, 8, 9, 17, 18, 10, 11, 19]),
    ("sizes", &[1, 2, 3, 4, 5, 6, 15]),
    (
        "value_no_table",
        &[1, 2, 3, 4, 5, 6, 15, 7, 8, 9, 17, 18, 10, 11],
    ),
];

/// For each check of each operation: input that fails it alone, with the next check, and
/// with all that follow. What an earlier check looks at is spoilt last, so that cutting a
/// record or a list does not hide the rest.
fn refusals(s: &mut Script, orders: &[(&str, &[u64])]) {
    for (operation, order) in orders {
        for (place, number) in order.iter().enumerate() {
            s.part(&format!(
                "Refusal {number} of {operation}: alone, with the next, with all behind it."
            ));
            let behind = order.len() - place;
            for count in [1, 2, behind].into_iter().cycle().take(15) {
                let (_, mut parts) = whole(&mut s.draw, 5, 4);
                let spoilt = &order[place..place + count.min(behind)];
                for number in spoilt.iter().rev() {
                    parts.spoil(operation, *number, &mut s.draw);
                }
                let line = parts.line(operation, &mut s.draw);
                writeln!(s.text, "{line}").unwrap();
            }
        }
    }
}

// ---------------------------------------------------- Dates, slices and sizes

fn every_count_of_dates(s: &mut Script) {
    s.part("N from 1 to 40, each behaviour, the table supplied back and walked.");
    for dates in 1..=40 {
        let terms = Terms {
            dates,
            ..s.draw.terms(12, 1)
        };
        let count = 1 + s.draw.upto(3);
        let returns = s.draw.returns(count);
        s.check(&terms.record());
        for behaviour in 0..3 {
            s.valued_and_walked(terms, &returns, behaviour);
        }
        let last = usize::from(dates).saturating_sub(1);
        s.book(terms, [last, 1, 1, 1], 16);
        s.book(terms, [last + 1, 1, 1, 1], 16);
    }
}

fn smallest(s: &mut Script) {
    s.part("Top 1.");
    for dates in [1, 2, 3, 10, 40] {
        let terms = Terms {
            premium: 1,
            level: 1,
            top: 1,
            dates,
            ..P
        };
        for behaviour in 0..3 {
            s.valued_and_walked(terms, &P_RETURNS, behaviour);
        }
        for (account, guarantee) in [(0, 0), (0, 1), (1, 0), (1, 1)] {
            for amount in 0..=2 {
                s.book(terms, [1, account, guarantee, amount], 16);
            }
        }
    }
}

fn largest(s: &mut Script) {
    s.part("Top 4,000, where the slices are too short.");
    for premium in [1, 2, 100, 3_999, 4_000] {
        let terms = Terms {
            premium,
            level: 1,
            top: 4_000,
            ..P
        };
        s.check(&terms.record());
        for behaviour in 0..3 {
            s.value(terms, &P_RETURNS, behaviour, 8_000, 4_000);
        }
        s.value_table(terms, &P_RETURNS, 16_003, "65536:0:1");
        s.walk(terms, &P_RETURNS, "8001:0:1", "0,1", 2);
        let guarantee = usize::from(premium);
        for amount in [0, 1, 2, 3_999, 4_000, 4_001] {
            s.book(terms, [1, 4_000, guarantee, amount], 16);
        }
    }
    s.part("Top 4,000 with premium 1: N 1, the working slice just long enough and one short; N 2 with its table.");
    let least = Terms {
        premium: 1,
        level: 1,
        top: 4_000,
        dates: 1,
        ..P
    };
    s.value(least, &P_RETURNS, 0, 16_004, 0);
    s.value(least, &P_RETURNS, 0, 16_003, 0);
    let two = Terms { dates: 2, ..least };
    for behaviour in 0..3 {
        s.valued_and_walked(two, &P_RETURNS, behaviour);
    }
}

fn every_count_of_returns(s: &mut Script) {
    s.part("1 to 64 returns, each behaviour.");
    for count in 1..=64 {
        let returns = s.draw.returns(count);
        let terms = Terms {
            dates: 2,
            ..s.draw.terms(9, 1)
        };
        for behaviour in 0..3 {
            s.valued_and_walked(terms, &returns, behaviour);
        }
    }
}

/// The engine takes guarantees in blocks of 64.
fn around_blocks(s: &mut Script) {
    s.part("Premiums around 64 and 128, with tops at and above the premium.");
    for premium in [62, 63, 64, 65, 66, 126, 127, 128, 129, 130] {
        for above in [0, 1, 60] {
            let terms = s.draw.terms(premium, 1);
            let terms = Terms {
                premium: premium as u16,
                top: (premium + above) as u16,
                dates: 2 + s.draw.upto(1) as u16,
                ..terms
            };
            let count = 1 + s.draw.upto(5);
            let returns = s.draw.returns(count);
            for behaviour in 0..3 {
                s.valued_and_walked(terms, &returns, behaviour);
            }
        }
    }
    s.part("N 40 with a table of 63,960 entries.");
    let terms = Terms {
        premium: 39,
        top: 40,
        dates: 40,
        ..P
    };
    for behaviour in 0..3 {
        s.valued_and_walked(terms, &P_RETURNS, behaviour);
    }
}

fn lengths_of_slices(s: &mut Script) {
    s.part("Lent slices just long enough, one short and longer.");
    for _ in 0..12 {
        let terms = s.draw.terms(12, 4);
        let count = 1 + s.draw.upto(3);
        let returns = s.draw.returns(count);
        let (work, table) = (terms.work(), terms.table());
        let behaviour = s.draw.upto(2) as u64;
        for work in [work - 1, work, work + 1, work + 77] {
            for table in [table.saturating_sub(1), table, table + 1, table + 99] {
                s.value(terms, &returns, behaviour, work, table);
            }
            s.value_table(terms, &returns, work, "=");
        }
        let dates = usize::from(terms.dates);
        for cash in [dates - 1, dates, dates + 1, dates + 20] {
            let path = s.draw.path(terms.dates, count);
            s.walk(terms, &returns, "=", &path, cash);
        }
    }
}

// ------------------------------------------------------------------- Random

fn random_records(s: &mut Script) {
    s.part("Random records: any bytes, then fields near their ends.");
    for _ in 0..60 {
        let record: Vec<u8> = (0..20).map(|_| s.draw.upto(255) as u8).collect();
        s.check(&record);
    }
    for _ in 0..250 {
        let near = |draw: &mut Draw, most: u16| match draw.upto(7) {
            0 => 0,
            1 => most,
            2 => most.saturating_add(1),
            _ => draw.upto(most.into()) as u16,
        };
        let top = near(&mut s.draw, 4_000);
        let premium = near(&mut s.draw, top);
        let terms = Terms {
            premium,
            level: near(&mut s.draw, premium),
            top,
            dates: near(&mut s.draw, 40),
            fee: near(&mut s.draw, 10_000),
            penalty: near(&mut s.draw, 10_000),
            discount: s.draw.one(&[0, 1, 1_000_000, 1_000_001, 970_000, 970_000]),
            step: near(&mut s.draw, 10_000),
            spare: s.draw.one(&[0, 0, 0, 0, 0, 0, 1, 256]),
        };
        s.check(&terms.record());
    }
}

fn random_bookings(s: &mut Script) {
    s.part("Random bookings, most of them admissible.");
    for _ in 0..120 {
        let mut terms = s.draw.terms(4_000, 40);
        terms.dates = terms.dates.max(2);
        for _ in 0..4 {
            let (top, premium) = (usize::from(terms.top), usize::from(terms.premium));
            let account = s.draw.upto(top);
            let guarantee = s.draw.upto(premium);
            let entry = account * (premium + 1) + guarantee;
            let most = terms.largest(entry);
            let m = usize::from(terms.level).min(guarantee);
            let inside = s.draw.upto(most);
            let amount = s.draw.one(&[inside, inside, m, m + 1, most, most + 1]);
            let date = 1 + s.draw.upto(usize::from(terms.dates) - 2);
            s.book(terms, [date, account, guarantee, amount], 16);
        }
    }
}

fn random_contract(s: &mut Script, terms: Terms, most_returns: usize) {
    let (returns, rates) = s.draw.lists(most_returns, terms.dates);
    s.with_rates(&rates, |s| tried(s, terms, &returns));
}

/// A table that is filled, supplied back whole and with one entry changed, and walked.
fn tried(s: &mut Script, terms: Terms, returns: &[Return]) {
    let (work, dates, count) = (terms.work(), usize::from(terms.dates), returns.len());
    s.check(&terms.record());
    for behaviour in 0..3 {
        s.valued_and_walked(terms, returns, behaviour);
        if terms.table() == 0 {
            continue;
        }
        let entry = s.draw.upto(terms.table() - 1);
        let most = terms.largest(entry % terms.layer());
        let inside = s.draw.upto(most);
        let amount = s.draw.one(&[inside, inside, most, most + 1, 65_535]);
        s.value_table(terms, returns, work, &format!("={entry}:{amount}"));
        let path = s.draw.path(terms.dates, count);
        let cash = dates + s.draw.upto(2);
        s.walk(terms, returns, "=", &path, cash);
    }
    let table = format!(
        "{}:{}:{}",
        terms.table(),
        s.draw.upto(65_520),
        1 + s.draw.upto(2)
    );
    s.value_table(terms, returns, work, &table);
    let path = s.draw.path(terms.dates, count);
    s.walk(terms, returns, &table, &path, dates);
}

fn random_tables(s: &mut Script) {
    s.part("Random tables of small contracts, every entry admissible, and walks by them.");
    for _ in 0..60 {
        let (terms, parts) = whole(&mut s.draw, 5, 4);
        let line = parts.line("value_table", &mut s.draw);
        writeln!(s.text, "{line}").unwrap();
        let list = hex(&parts.list);
        for _ in 0..3 {
            let path = s.draw.path(terms.dates, parts.list.len() / 4);
            let (record, cash) = (hex(&parts.record), s.draw.filled_64(terms.dates.into()));
            writeln!(s.text, "walk {record} {list} = {path} {cash}").unwrap();
        }
    }
}

fn random_walks(s: &mut Script) {
    s.part("Random walks: whole, with a bad return number, with bad amounts from some date on.");
    for _ in 0..60 {
        let (terms, mut parts) = whole(&mut s.draw, 3, 10);
        let mut lines = vec![parts.line("walk", &mut s.draw)];
        let place = s.draw.upto(parts.numbers.len() - 1);
        let count = (parts.list.len() / 4) as u16;
        let number = std::mem::replace(&mut parts.numbers[place], count);
        lines.push(parts.line("walk", &mut s.draw));
        parts.numbers[place] = number;
        let before = terms.layer() * s.draw.upto(usize::from(terms.dates) - 2);
        parts.table[before..].fill(4);
        lines.push(parts.line("walk", &mut s.draw));
        lines.push(parts.line("value_table", &mut s.draw));
        for line in lines {
            writeln!(s.text, "{line}").unwrap();
        }
    }
}

fn random_contracts(s: &mut Script) {
    s.part("Random contracts, small.");
    for _ in 0..60 {
        let terms = s.draw.terms(10, 6);
        random_contract(s, terms, 4);
    }
    s.part("Random contracts whose penalty rate falls.");
    for _ in 0..40 {
        let terms = s.draw.falling(10, 8);
        random_contract(s, terms, 4);
    }
    s.part("Random contracts of up to 64 returns.");
    for _ in 0..6 {
        let terms = s.draw.terms(8, 4);
        random_contract(s, terms, 64);
    }
    s.part("Random contracts with tops up to 60.");
    for _ in 0..12 {
        let terms = s.draw.terms(60, 5);
        random_contract(s, terms, 6);
    }
}

// ---------------------------------------- Document 02, request (ii): maps of surrender

/// A valuation with a map under each behaviour, the last table supplied back and walked.
fn mapped(s: &mut Script, terms: Terms, returns: &[Return], map: usize) {
    for behaviour in 0..3 {
        s.value_map(terms, returns, behaviour, terms.work(), map);
    }
    s.value_table(terms, returns, terms.work(), "=");
    let path = s.draw.path(terms.dates, returns.len());
    s.walk(terms, returns, "=", &path, terms.dates.into());
}

fn maps_worked_by_hand(s: &mut Script) {
    s.part("Document 02, request (ii): P and Q with N 1, 2 and 3, maps just long enough.");
    for base in [P, Q] {
        for dates in [1, 2, 3] {
            let terms = Terms { dates, ..base };
            mapped(s, terms, &P_RETURNS, terms.map());
        }
    }
}

/// Top, U and N. Tables of 64, 128, 63 and 65 entries; over several dates, of 64, 385 and
/// 768; of 129. Rows of 63, 64 and 65 entries, then of 128, 129 and 130. The highest top,
/// the most dates.
const SHAPES: [(u16, u16, u16); 16] = [
    (7, 7, 2),
    (15, 7, 2),
    (8, 6, 2),
    (12, 4, 2),
    (3, 3, 5),
    (10, 6, 6),
    (15, 15, 4),
    (42, 2, 2),
    (62, 62, 3),
    (63, 63, 3),
    (64, 64, 3),
    (127, 127, 2),
    (128, 128, 2),
    (129, 129, 3),
    (4_000, 1, 2),
    (40, 39, 40),
];

/// At a discount of 1 later values count for nothing, so that every account above m is
/// surrendered.
fn ends_of_words(s: &mut Script) {
    s.part("Maps of tables that end inside a word, at its end and one after, and rows around 64 and 128 entries.");
    for (top, premium, dates) in SHAPES {
        let shape = |terms: Terms| Terms {
            top,
            premium,
            level: 1 + premium / 5,
            dates,
            ..terms
        };
        let terms = shape(Terms { step: 250, ..P });
        mapped(s, terms, &P_RETURNS, terms.map());
        mapped(s, shape(Q), &P_RETURNS, terms.map() + 1);
        let (work, map) = (terms.work(), terms.map());
        let discount = 1;
        s.value_map(Terms { discount, ..terms }, &P_RETURNS, 1, work, map);
        s.value_map(Terms { discount, ..terms }, &P_RETURNS, 2, work, map);
        s.value_map(terms, &P_RETURNS, 1, work, map - 1);
    }
}

fn lengths_of_maps(s: &mut Script) {
    s.part("Maps just long enough, one word short, without a word and longer; working slices longer by as much.");
    for _ in 0..20 {
        let terms = s.draw.terms(12, 6);
        let count = 1 + s.draw.upto(3);
        let returns = s.draw.returns(count);
        let (map, behaviour) = (terms.map(), s.draw.upto(2) as u64);
        for map in [0, map.saturating_sub(1), map, map + 1, map + 40] {
            let work = terms.work() + map.saturating_sub(terms.map());
            s.value_map(terms, &returns, behaviour, work, map);
        }
    }
}

fn maps_of_every_date(s: &mut Script) {
    s.part("N from 1 to 40 with a map, each behaviour, the table supplied back and walked.");
    for dates in 1..=40 {
        let penalty = s.draw.one(&[0, 300, 1_000]);
        let terms = Terms {
            dates,
            penalty,
            step: penalty / dates,
            ..s.draw.terms(12, 1)
        };
        let count = 1 + s.draw.upto(3);
        let returns = s.draw.returns(count);
        mapped(s, terms, &returns, terms.map());
    }
}

/// A map of at most two words more than are needed.
fn random_map(s: &mut Script, terms: Terms, most_returns: usize) {
    let (returns, rates) = s.draw.lists(most_returns, terms.dates);
    let map = terms.map() + s.draw.upto(2);
    s.with_rates(&rates, |s| mapped(s, terms, &returns, map));
}

fn random_maps(s: &mut Script) {
    s.part("Random contracts with a map.");
    for _ in 0..40 {
        let terms = s.draw.terms(12, 6);
        random_map(s, terms, 4);
    }
    s.part("Random contracts with a map whose penalty rate falls, or is 0.");
    for _ in 0..40 {
        let terms = s.draw.falling(12, 8);
        random_map(s, terms, 4);
        let terms = s.draw.terms(12, 6);
        random_map(
            s,
            Terms {
                penalty: 0,
                ..terms
            },
            4,
        );
    }
    s.part("Random contracts with a map and tops up to 90.");
    for _ in 0..10 {
        let terms = s.draw.terms(90, 4);
        random_map(s, terms, 4);
    }
}

// ------------------------------------- Document 02, request (iv): the ceiling pays out

/// Every path of a contract with two returns, by the last table.
fn every_path(s: &mut Script, terms: Terms, returns: &[Return]) {
    let dates = usize::from(terms.dates);
    for path in 0..1_u16 << dates {
        let numbers: Vec<u16> = (0..dates).rev().map(|place| path >> place & 1).collect();
        s.walk(terms, returns, "=", &listed(&numbers), dates);
    }
}

fn payouts_worked_by_hand(s: &mut Script) {
    s.part("Document 02, request (iv): P and Q with N 1 to 4, walked along every path, then with a map.");
    for base in [P, Q] {
        for dates in 1..=4 {
            let terms = Terms { dates, ..base };
            for behaviour in 0..3 {
                s.value(terms, &P_RETURNS, behaviour, terms.work(), terms.table());
                s.value_table(terms, &P_RETURNS, terms.work(), "=");
                every_path(s, terms, &P_RETURNS);
            }
            mapped(s, terms, &P_RETURNS, terms.map());
        }
    }
}

/// Factors that lift 10 to below 12, to 12, below 13, to 13 and further; under a top of 12
/// these are nothing and 1 above it, under one of 10 all are above.
const LIFTS: [u16; 7] = [11_999, 12_000, 12_999, 13_000, 13_001, 20_000, 30_000];

fn lifts_around_top(s: &mut Script) {
    s.part("Premiums lifted to just below top, to top, to one above it and further, by one return or one of two.");
    for (top, dates) in [(12, 1), (12, 2), (12, 3), (10, 1), (10, 2), (10, 4)] {
        let terms = Terms { top, dates, ..P };
        for factor in LIFTS {
            for returns in [
                vec![(factor, 10_000)],
                vec![(7_000, 4_000), (factor, 6_000)],
            ] {
                let behaviour = s.draw.upto(2) as u64;
                s.valued_and_walked(terms, &returns, behaviour);
                s.value_map(terms, &returns, behaviour, terms.work(), terms.map());
            }
        }
    }
}

/// 10 come to 12.5 before the fee: to 12, 11 or 10 after it.
fn fees_down_to_top(s: &mut Script) {
    s.part("Fees that bring a lift down to one above top, to top and below it.");
    for fee in [
        0, 399, 400, 401, 1_199, 1_200, 1_201, 1_999, 2_000, 2_001, 9_999, 10_000,
    ] {
        for (top, dates) in [(10, 1), (10, 3), (11, 1), (11, 3)] {
            let terms = Terms {
                top,
                dates,
                fee,
                ..P
            };
            for behaviour in 0..3 {
                s.valued_and_walked(terms, &[(12_500, 10_000)], behaviour);
            }
            mapped(s, terms, &[(12_500, 5_000), (9_000, 5_000)], terms.map());
        }
    }
}

/// A return that changes nothing and one that triples.
const STILL_OR_TRIPLE: [Return; 2] = [(10_000, 5_000), (30_000, 5_000)];

/// The tables draw nothing, then 5, then 6, of which 1 is above m, in the states that a walk
/// meets at top.
fn walks_past_top(s: &mut Script) {
    s.part("Walks that pass top on date 1, on a date after it, at maturity, on several or on none; 0, 5 and 6 drawn at top.");
    for dates in [1, 2, 3, 5] {
        let terms = Terms {
            top: 12,
            dates,
            step: 300,
            ..P
        };
        let (work, layer) = (terms.work(), terms.layer());
        s.value_table(
            terms,
            &STILL_OR_TRIPLE,
            work,
            &format!("{}:0:1", terms.table()),
        );
        every_path(s, terms, &STILL_OR_TRIPLE);
        for date in 1..usize::from(dates) {
            for amount in [5, 6] {
                // (12, 10), the last entry of the date's layer
                let table = format!("={}:{amount}", date * layer - 1);
                s.value_table(terms, &STILL_OR_TRIPLE, work, &table);
                every_path(s, terms, &STILL_OR_TRIPLE);
            }
        }
    }
}

fn bookings_at_top(s: &mut Script) {
    s.part("Bookings at top, on every date: no excess is booked.");
    for (top, dates) in [(10, 2), (12, 4)] {
        let terms = Terms {
            top,
            dates,
            step: 100,
            ..P
        };
        for date in 0..=usize::from(dates) {
            for amount in 0..=usize::from(top) + 1 {
                s.book(terms, [date, top.into(), 10, amount], 16);
            }
            s.book(terms, [date, usize::from(top) + 1, 10, 0], 16);
        }
    }
}

/// As large as there is room for.
fn large_payouts(s: &mut Script) {
    s.part("Large payouts: tops of 40, 1,000 and 4,000 that triple.");
    for (top, premium, dates, behaviours) in [
        (40, 38, 40, 3),
        (1_000, 1, 30, 2),
        (1_000, 30, 2, 2),
        (4_000, 1, 9, 2),
        (4_000, 6, 3, 2),
        (4_000, 1, 2, 3),
    ] {
        let terms = Terms {
            top,
            premium,
            level: 1,
            dates,
            penalty: 200,
            ..P
        };
        for behaviour in 0..behaviours {
            s.valued_and_walked(terms, &[(30_000, 10_000)], behaviour);
            s.value_map(
                terms,
                &STILL_OR_TRIPLE,
                behaviour,
                terms.work(),
                terms.map(),
            );
        }
        let zeros = format!("{}:0:1", terms.table());
        s.value_table(terms, &[(30_000, 10_000)], terms.work(), &zeros);
        let path = format!("{dates}:0:1");
        s.walk(terms, &[(30_000, 10_000)], "=", &path, dates.into());
    }
}

fn random_payout(s: &mut Script, terms: Terms, most_returns: usize) {
    let count = 1 + s.draw.upto(most_returns - 1);
    let (returns, rates) = (s.draw.lifting(count), s.draw.rates(terms.dates));
    s.with_rates(&rates, |s| {
        tried(s, terms, &returns);
        mapped(s, terms, &returns, terms.map());
    });
}

fn random_payouts(s: &mut Script) {
    s.part("Random contracts whose returns lift accounts above top.");
    for _ in 0..60 {
        let terms = s.draw.near_top(12, 6);
        random_payout(s, terms, 4);
    }
    s.part("The same with up to 64 returns, then with tops up to 60.");
    for (most_top, most_dates, most_returns) in [(10, 4, 64), (60, 4, 20)] {
        for _ in 0..8 {
            let terms = s.draw.near_top(most_top, most_dates);
            random_payout(s, terms, most_returns);
        }
    }
}

fn payouts(s: &mut Script) {
    payouts_worked_by_hand(s);
    lifts_around_top(s);
    fees_down_to_top(s);
    walks_past_top(s);
    bookings_at_top(s);
    large_payouts(s);
    random_payouts(s);
}

// ------------------------------------- Document 02, request (v): payment at death

/// The calls that take rates, their slices just long enough: each behaviour, a map, the last
/// table supplied back.
fn valued_with_rates(s: &mut Script, terms: Terms, returns: &[Return], rates: &[u16]) {
    s.with_rates(rates, |s| {
        for behaviour in 0..3 {
            s.value(terms, returns, behaviour, terms.work(), terms.table());
        }
        let behaviour = s.draw.upto(2) as u64;
        s.value_map(terms, returns, behaviour, terms.work(), terms.map());
        s.value_table(terms, returns, terms.work(), "=");
    });
}

fn deaths_worked_by_hand(s: &mut Script) {
    s.part("Document 02, request (v): P and Q with death rates, each behaviour, the table supplied back.");
    let pairs = [
        [0, 0],
        [100, 100],
        [2_500, 5_000],
        [10_000, 0],
        [10_000, 10_000],
        [0, 10_000],
    ];
    for terms in [P, Q] {
        for rates in pairs {
            valued_with_rates(s, terms, &P_RETURNS, &rates);
        }
        let three = Terms { dates: 3, ..terms };
        valued_with_rates(s, three, &P_RETURNS, &[100, 200, 300]);
        let four = Terms { dates: 4, ..terms };
        valued_with_rates(s, four, &P_RETURNS, &[500; 4]);
        let discount = 950_000;
        let terms = Terms { discount, ..terms };
        valued_with_rates(s, terms, &P_RETURNS, &[3_333; 2]);
    }
}

/// A discount and a fee, so that the death payment is not worth what the guarantee is.
const DISCOUNTED: Terms = Terms {
    fee: 150,
    discount: 950_000,
    ..P
};

fn one_period_only(s: &mut Script) {
    s.part("Death rates of one period only, each period in turn.");
    for (dates, deadly) in [
        (1, &[1, 10_000][..]),
        (2, &[1, 5_000, 10_000]),
        (3, &[1, 5_000, 9_999, 10_000]),
        (6, &[5_000]),
    ] {
        for period in 0..usize::from(dates) {
            for rate in deadly {
                let terms = Terms {
                    dates,
                    ..DISCOUNTED
                };
                let mut rates = terms.zero_rates();
                rates[period] = *rate;
                valued_with_rates(s, terms, &P_RETURNS, &rates);
            }
        }
    }
    for period in 0..40 {
        let terms = Terms {
            dates: 40,
            top: 12,
            ..DISCOUNTED
        };
        let mut rates = terms.zero_rates();
        rates[period] = 5_000;
        s.with_rates(&rates, |s| {
            let behaviour = s.draw.upto(2) as u64;
            s.value(terms, &P_RETURNS, behaviour, terms.work(), terms.table());
            s.value_table(terms, &P_RETURNS, terms.work(), "=");
            s.value_map(terms, &P_RETURNS, 2 - behaviour, terms.work(), terms.map());
        });
    }
}

/// A line for each operation that takes rates, with these bytes as rates.
fn rates_as_bytes(s: &mut Script, terms: Terms, rates: &[u8]) {
    let (record, list, rates) = (hex(&terms.record()), hex(&list(&P_RETURNS)), hex(rates));
    let bytes = format!("{record} {list} {rates}");
    let (behaviour, table) = (s.draw.upto(2), terms.table());
    let work = s.draw.filled_64(terms.work());
    let map = s.draw.filled_map(terms.map());
    let text = &mut s.text;
    writeln!(text, "value {bytes} {behaviour} {work} {table}:0:1").unwrap();
    writeln!(text, "value_map {bytes} {behaviour} {work} = {map}").unwrap();
    writeln!(text, "value_table {bytes} {work} {table}:0:1").unwrap();
}

/// Writes lines with a contract's record, P's list and these bytes as rates.
type WithRates = fn(&mut Script, Terms, &[u8]);

/// Rates of 1,799, then of 65,535, which are refused where their count is right.
fn lengths_of_rates(s: &mut Script, write: WithRates) {
    s.part("Death rates of every length around 2 x N bytes, also with rates above 10,000.");
    let longest = [0, 1, 2, 4, 40, 78, 79, 80, 81, 82, 84, 127, 128].to_vec();
    for (dates, lengths) in [
        (1, (0..=5).chain([80]).collect()),
        (2, (0..=7).chain([78, 80, 82]).collect()),
        (40, longest),
    ] {
        for length in lengths {
            for byte in [7, 255] {
                let terms = Terms {
                    dates,
                    top: 10,
                    ..P
                };
                write(s, terms, &vec![byte; length]);
            }
        }
    }
}

fn rates_above_whole(s: &mut Script, write: WithRates) {
    s.part("Death rates of 10,000 and above it, at each index and at two.");
    for (dates, rates) in [
        (1, &[10_000, 10_001, 10_240, 65_535][..]),
        (2, &[10_000, 10_001, 65_535]),
        (3, &[10_001, 65_535]),
        (40, &[10_001]),
    ] {
        let terms = Terms {
            dates,
            top: 10,
            ..P
        };
        for index in 0..usize::from(dates) {
            for rate in rates {
                let mut rates = s.draw.rates(dates);
                rates[index] = *rate;
                write(s, terms, &rate_list(&rates));
            }
        }
    }
    for (first, second) in [(0, 1), (0, 39), (1, 2), (7, 30), (38, 39)] {
        let terms = Terms {
            dates: 40,
            top: 10,
            ..P
        };
        let mut rates = s.draw.rates(40);
        rates[first] = s.draw.one(&[10_001, 65_535]);
        rates[second] = s.draw.one(&[10_001, 65_535]);
        write(s, terms, &rate_list(&rates));
    }
}

/// 18 is spoilt before 17, which may cut the rates.
fn rates_refused_in_order(s: &mut Script, orders: &[(&str, &[u64])]) {
    s.part("Refusals 17 and 18 beside each other check of the operation.");
    for (operation, order) in orders.iter().filter(|(_, order)| order.contains(&17)) {
        let twice = order.iter().chain(*order);
        let pairs = twice.flat_map(|other| [(17, *other), (18, *other)]);
        for (number, other) in pairs.filter(|(number, other)| number != other) {
            let (_, mut parts) = whole(&mut s.draw, 5, 4);
            for spoilt in [number.max(other), number.min(other)] {
                parts.spoil(operation, spoilt, &mut s.draw);
            }
            let line = parts.line(operation, &mut s.draw);
            writeln!(s.text, "{line}").unwrap();
        }
    }
}

/// The returns lead below the guarantee, to it, above it, to top and past it.
fn guarantee_or_account(s: &mut Script) {
    s.part("Deaths on an account below the guarantee, at it and above it, at top and past it.");
    for factor in [0, 5_000, 10_000, 15_000, 20_000, 30_000] {
        for rates in [&[4_999][..], &[10_000], &[5_000, 1], &[1, 5_000, 3_333]] {
            let terms = Terms {
                dates: rates.len() as u16,
                discount: 900_000,
                ..P
            };
            valued_with_rates(s, terms, &[(factor, 10_000)], rates);
        }
    }
}

fn deaths_past_top(s: &mut Script) {
    s.part(
        "Deaths on arrival past top: on the first return, on one between, at maturity, on several.",
    );
    for dates in 1..=3 {
        let terms = Terms {
            dates,
            top: 12,
            ..DISCOUNTED
        };
        for chosen in 1..1_u16 << dates {
            let rates: Vec<u16> = (0..dates).map(|i| (chosen >> i & 1) * 2_501).collect();
            valued_with_rates(s, terms, &STILL_OR_TRIPLE, &rates);
        }
    }
    s.part("Large death payments: a top of 4,000 that triples.");
    for (rate, behaviour) in [(1, 0), (5_000, 1), (9_999, 0), (10_000, 1)] {
        let terms = Terms {
            top: 4_000,
            premium: 1,
            level: 1,
            dates: 9,
            ..P
        };
        s.with_rates(&[rate; 9], |s| {
            s.valued_and_walked(terms, &[(30_000, 10_000)], behaviour);
        });
    }
}

fn deaths_on_every_date(s: &mut Script) {
    s.part("N from 1 to 40 with random death rates, under a random behaviour, the table supplied back and walked.");
    for dates in 1..=40 {
        let terms = Terms {
            dates,
            ..s.draw.terms(12, 1)
        };
        let (returns, rates) = s.draw.lists(4, dates);
        let behaviour = s.draw.upto(2) as u64;
        s.with_rates(&rates, |s| s.valued_and_walked(terms, &returns, behaviour));
    }
}

fn deaths(s: &mut Script) {
    deaths_worked_by_hand(s);
    one_period_only(s);
    lengths_of_rates(s, rates_as_bytes);
    rates_above_whole(s, rates_as_bytes);
    rates_refused_in_order(s, &ORDERS[..6]);
    guarantee_or_account(s);
    deaths_past_top(s);
    deaths_on_every_date(s);
}

// ---------------------------- Document 02, request (vi): which fee gives this price

/// What a contract is worth at a fee.
fn worth_at(terms: Terms, list: &[u8], rates: &[u8], behaviour: u64, fee: u16) -> u64 {
    let record = Terms { fee, ..terms }.record();
    let (mut work, mut table) = (vec![0; terms.work()], vec![0; terms.table()]);
    gmwb::value(&record, list, rates, behaviour, &mut work, &mut table).value
}

/// Wanted: what the contract is worth at a fee, one less and one more.
fn around(s: &mut Script, terms: Terms, returns: &[Return], behaviour: u64, fee: u16) {
    let rates = s.rates.clone().unwrap_or(terms.zero_rates());
    let (list, rates) = (list(returns), rate_list(&rates));
    let value = worth_at(terms, &list, &rates, behaviour, fee);
    for wanted in [value.saturating_sub(1), value, value + 1] {
        s.fee(terms, returns, behaviour, wanted, terms.work());
    }
}

fn fees_worked_by_hand(s: &mut Script) {
    s.part("Document 02, request (vi): the figures of P, each behaviour.");
    let wanted = [
        99_999, 100_000, 100_001, 109_999, 110_000, 110_001, 122_499, 122_500, 124_999, 125_000,
        125_001, 129_999, 130_000, 130_001,
    ];
    for (behaviour, wanted) in (0..3).flat_map(|b| wanted.map(|w| (b, w))) {
        s.fee(P, &P_RETURNS, behaviour, wanted, P.work());
    }
    s.part("P's record with other fees, which change nothing; above 10,000 they are refused.");
    for fee in [
        0, 1, 1_333, 1_334, 1_667, 5_000, 9_999, 10_000, 10_001, 65_535,
    ] {
        for behaviour in 0..3 {
            s.fee(Terms { fee, ..P }, &P_RETURNS, behaviour, 110_000, P.work());
        }
    }
    s.part("A table used again behind searches, which have none.");
    for behaviour in 0..3 {
        s.value(P, &P_RETURNS, behaviour, P.work(), P.table());
        s.fee(P, &P_RETURNS, behaviour, 110_000, P.work());
        s.value_table(P, &P_RETURNS, P.work(), "=");
        s.fee(P, &P_RETURNS, behaviour, 0, P.work());
        s.walk(P, &P_RETURNS, "=", "1,0", 2);
    }
}

/// With 32 bits some would be what no fee gives; with a sign those from 2^63 on would be below 0.
fn ends_of_wanted(s: &mut Script) {
    s.part("Wanted values from 0 to 2^64 - 1; with a discount of 1, at which all is worth 0.");
    let (narrow, signed) = (1 << 32, 1 << 63);
    for wanted in [
        0,
        1,
        65_535,
        65_536 + 99_999,
        narrow - 1,
        narrow,
        narrow + 99_999,
        narrow + 110_000,
        signed - 1,
        signed,
        signed + 110_000,
        u64::MAX - 1,
        u64::MAX,
    ] {
        for behaviour in 0..3 {
            s.fee(P, &P_RETURNS, behaviour, wanted, P.work());
        }
        let (terms, behaviour) = (Terms { discount: 1, ..P }, s.draw.upto(2) as u64);
        s.fee(terms, &P_RETURNS, behaviour, wanted, terms.work());
    }
}

/// Contracts with zero rates, with returns that lift above top or none that does, with rates
/// that fall; under the discount of the last all that is not drawn at once is worth little.
fn searched() -> [(Terms, Vec<Return>, Vec<u16>); 9] {
    let one = Terms { dates: 1, ..P };
    let three = Terms {
        top: 15,
        dates: 3,
        ..P
    };
    let falling = Terms {
        top: 10,
        dates: 4,
        step: 300,
        ..DISCOUNTED
    };
    let full = Terms {
        top: 10,
        dates: 3,
        step: 500,
        ..P
    };
    let hasty = Terms {
        discount: 10_000,
        level: 1,
        ..three
    };
    let several = vec![(7_000, 1), (9_500, 4_999), (9_500, 3_000), (16_000, 2_000)];
    [
        (one, P_RETURNS.to_vec(), vec![0]),
        (one, vec![(30_000, 10_000)], vec![5_000]),
        (P, P_RETURNS.to_vec(), vec![2_500, 5_000]),
        (Q, STILL_OR_TRIPLE.to_vec(), vec![0, 0]),
        (three, several.clone(), vec![1, 200, 300]),
        (falling, several, vec![500, 1, 9_999, 10_000]),
        (full, STILL_OR_TRIPLE.to_vec(), vec![0, 0, 0]),
        (full, vec![(0, 2_000), (20_000, 8_000)], vec![10_000, 0, 7]),
        (hasty, vec![(13_000, 10_000)], vec![0, 700, 1]),
    ]
}

fn around_values(s: &mut Script) {
    s.part("Wanted: what a fee gives, one less and one more. N 1, steps, death rates, returns above top, each behaviour.");
    for (terms, returns, rates) in searched() {
        s.with_rates(&rates, |s| {
            for behaviour in 0..3 {
                for fee in [0, 1, 400, 1_700, 3_333, 6_000, 10_000] {
                    around(s, terms, &returns, behaviour, fee);
                }
            }
        });
    }
}

/// A return that triples leads from U to 2 as long as 3 × U × (10,000 − fee) is 20,000 or more.
/// Where later payments count for little, 2 are surrendered, beside a level of 1.
fn high_fees(s: &mut Script) {
    s.part("High fees: 2 units left of a premium count, 1 does not.");
    for (premium, dates) in [(4, 2), (10, 2), (10, 3), (20, 3), (30, 2)] {
        let terms = Terms {
            premium,
            level: 1,
            top: premium,
            dates,
            discount: 20_000,
            ..P
        };
        let last = 10_000 - 20_000_u16.div_ceil(3 * premium);
        for behaviour in 0..3 {
            around(s, terms, &[(30_000, 10_000)], behaviour, last);
            around(s, terms, &[(30_000, 10_000)], behaviour, last + 1);
        }
    }
}

fn lengths_of_work(s: &mut Script) {
    s.part("Working slices of no entry, of one layer, one short, just long enough and longer; a fee found or none.");
    for _ in 0..12 {
        let terms = s.draw.terms(8, 3);
        let count = 1 + s.draw.upto(2);
        let (returns, behaviour) = (s.draw.returns(count), s.draw.upto(2) as u64);
        let work = terms.work();
        for work in [0, work / 2, work - 1, work, work + 1, work + 77] {
            for wanted in [0, u64::MAX] {
                s.fee(terms, &returns, behaviour, wanted, work);
            }
        }
    }
    s.part("Top 4,000: working slices too short, then long enough for a premium of 1.");
    let highest = Terms {
        level: 1,
        top: 4_000,
        ..P
    };
    for premium in [1, 10, 4_000] {
        s.fee(Terms { premium, ..highest }, &P_RETURNS, 0, 0, 16_003);
    }
    let least = Terms {
        premium: 1,
        ..highest
    };
    for behaviour in 0..2 {
        for fee in [0, 20] {
            around(s, least, &[(30_000, 10_000)], behaviour, fee);
        }
    }
}

fn fees_at_ends_of_fields(s: &mut Script) {
    s.part("Each field of the record at the ends of its range and beyond: a fee searched, and one found at once.");
    for terms in fields_at_ends() {
        let fits = terms.work() <= 65_536;
        let work = if fits { terms.work() } else { P.work() };
        s.fee(terms, &P_RETURNS, 0, 110_000, work);
        s.fee(terms, &P_RETURNS, 2, u64::MAX, work);
    }
}

fn fee_with_rates(s: &mut Script, terms: Terms, rates: &[u8]) {
    let (record, list, rates) = (hex(&terms.record()), hex(&list(&P_RETURNS)), hex(rates));
    let (behaviour, work) = (s.draw.upto(2), s.draw.filled_64(terms.work()));
    let line = format!("fee {record} {list} {rates} {behaviour} 110000 {work}");
    writeln!(s.text, "{line}").unwrap();
}

fn fees_of_every_date(s: &mut Script) {
    s.part("N from 1 to 40 with random death rates, a fee searched under each behaviour.");
    for dates in 1..=40 {
        let terms = Terms {
            dates,
            ..s.draw.terms(6, 1)
        };
        let (returns, rates) = s.draw.lists(3, dates);
        let fee = s.draw.upto(3_000) as u16;
        s.with_rates(&rates, |s| {
            for behaviour in 0..3 {
                around(s, terms, &returns, behaviour, fee);
            }
        });
    }
    s.part("N 40 with a working slice of 3,280 entries; 64 returns: small fees.");
    let terms = Terms {
        premium: 39,
        top: 40,
        dates: 40,
        ..P
    };
    let many = s.draw.returns(64);
    for behaviour in 0..3 {
        around(s, terms, &P_RETURNS, behaviour, 2);
        around(s, P, &many, behaviour, 30);
    }
}

/// Under each behaviour, around what some fee gives, and any value up to twice the premium.
fn random_fee(s: &mut Script, terms: Terms, returns: &[Return], rates: &[u16]) {
    s.with_rates(rates, |s| {
        for behaviour in 0..3 {
            let some = s.draw.upto(10_000);
            let fee = s.draw.one(&[0, some / 100, some / 10, some / 3, some]);
            around(s, terms, returns, behaviour, fee as u16);
            let wanted = s.draw.upto(20_000 * usize::from(terms.premium)) as u64;
            let work = terms.work() + s.draw.upto(3);
            s.fee(terms, returns, behaviour, wanted, work);
        }
    });
}

fn random_fees(s: &mut Script) {
    s.part("Random contracts and wanted values.");
    for _ in 0..40 {
        let terms = s.draw.terms(8, 4);
        let (returns, rates) = s.draw.lists(4, terms.dates);
        random_fee(s, terms, &returns, &rates);
    }
    s.part("The same with penalty rates that fall, then with returns that lift above top.");
    for _ in 0..12 {
        let terms = s.draw.falling(8, 5);
        let (returns, rates) = s.draw.lists(4, terms.dates);
        random_fee(s, terms, &returns, &rates);
        let terms = s.draw.near_top(8, 4);
        let (returns, rates) = (s.draw.lifting(3), s.draw.rates(terms.dates));
        random_fee(s, terms, &returns, &rates);
    }
}

fn fees(s: &mut Script) {
    fees_worked_by_hand(s);
    ends_of_wanted(s);
    around_values(s);
    high_fees(s);
    lengths_of_work(s);
    fees_at_ends_of_fields(s);
    refusals(s, &ORDERS[6..7]);
    lengths_of_rates(s, fee_with_rates);
    rates_above_whole(s, fee_with_rates);
    rates_refused_in_order(s, &ORDERS[6..7]);
    fees_of_every_date(s);
    random_fees(s);
}

// ---------------------------- Document 02, request (vii): sum by account reached

/// Every call that sums over the returns. The slices are just long enough, so that the same
/// returns in another list get the same answers.
fn summed(s: &mut Script, terms: Terms, returns: &[Return]) {
    let (work, table, map) = (terms.work(), terms.table(), terms.map());
    for behaviour in 0..3 {
        s.value(terms, returns, behaviour, work, table);
    }
    s.value_table(terms, returns, work, "=");
    // The same for every list of a contract.
    let behaviour = u64::from(terms.level % 3);
    s.value_map(terms, returns, behaviour, work, map);
    let rates = s.rates.clone().unwrap_or(terms.zero_rates());
    let (list, rates) = (list(returns), rate_list(&rates));
    let wanted = worth_at(terms, &list, &rates, behaviour, 12);
    s.fee(terms, returns, behaviour, wanted, work);
}

/// The lists, with zero death rates and with others.
fn all_summed(s: &mut Script, terms: Terms, lists: &[Vec<Return>]) {
    let rates: Vec<u16> = (0..terms.dates).map(|i| 150 + 350 * i).collect();
    for returns in lists {
        summed(s, terms, returns);
        s.with_rates(&rates, |s| summed(s, terms, returns));
    }
}

/// Returns that part from a balance of 9 lead to 0, 1 or 2 from 1.
const SUMMED: Terms = Terms {
    premium: 6,
    level: 2,
    top: 9,
    dates: 3,
    fee: 50,
    penalty: 500,
    discount: 970_000,
    step: 100,
    spare: 0,
};

/// Every order of some returns.
fn orders(returns: &[Return]) -> Vec<Vec<Return>> {
    if returns.is_empty() {
        return vec![Vec::new()];
    }
    let mut all = Vec::new();
    for place in 0..returns.len() {
        let mut rest = returns.to_vec();
        let first = rest.remove(place);
        for mut order in orders(&rest) {
            order.insert(0, first);
            all.push(order);
        }
    }
    all
}

/// Rising, falling and shuffled; the returns given rise.
fn some_orders(s: &mut Script, rising: &[Return], shuffled: usize) -> Vec<Vec<Return>> {
    let mut all = vec![rising.to_vec(), rising.iter().rev().copied().collect()];
    all.extend((0..shuffled).map(|_| s.draw.shuffled(rising)));
    all
}

/// Factors that rise by a step, each with a weight of its own, so that none stands for another.
fn sixty_four(first: u16, step: u16) -> Vec<Return> {
    let mut returns: Vec<Return> = (0..64).map(|k| (first + step * k, 93 + 2 * k)).collect();
    returns[31].1 += 16;
    returns
}

fn every_order(s: &mut Script) {
    s.part("Document 02, request (vii): three returns in every order.");
    let three = [(7_500, 2_000), (10_400, 5_001), (16_000, 2_999)];
    all_summed(s, SUMMED, &orders(&three));
    s.part("Four returns in every order, two of them of one factor.");
    let four = [
        (9_000, 1_500),
        (9_000, 2_500),
        (12_500, 3_000),
        (20_000, 3_000),
    ];
    let terms = Terms {
        premium: 5,
        top: 6,
        ..SUMMED
    };
    for returns in orders(&four) {
        s.with_rates(&[700, 0, 2_500], |s| {
            for behaviour in 0..3 {
                s.value(terms, &returns, behaviour, terms.work(), terms.table());
            }
            s.value_table(terms, &returns, terms.work(), "=");
        });
    }
    s.part("64 returns rising, falling and shuffled.");
    let lists = some_orders(s, &sixty_four(2_000, 437), 2);
    all_summed(s, SUMMED, &lists);
}

fn equal_factors(s: &mut Script) {
    s.part("Two and three equal factors, side by side and apart, and joined; 64 of them, and one.");
    let sixty_four = sixty_four(12_345, 0);
    let two = [
        vec![(9_000, 2_500), (14_000, 5_000), (9_000, 2_500)],
        vec![(9_000, 2_500), (9_000, 2_500), (14_000, 5_000)],
        vec![(14_000, 5_000), (9_000, 5_000)],
    ];
    let three = [
        vec![
            (13_000, 1),
            (8_000, 4_000),
            (13_000, 2_999),
            (13_000, 3_000),
        ],
        vec![(13_000, 6_000), (8_000, 4_000)],
    ];
    let all = [sixty_four, vec![(12_345, 10_000)]];
    // Maps and searches follow the level's behaviour.
    for (level, lists) in [(2, &two[..]), (1, &three), (3, &all)] {
        all_summed(s, Terms { level, ..SUMMED }, lists);
    }
}

/// From 8 they lead to 4, to top, twice to one above it by different factors, and further.
fn same_account_other_excess(s: &mut Script) {
    s.part("Returns to top and above it, by the same excess and by others.");
    let rising = [
        (5_000, 2_500),
        (10_000, 2_000),
        (11_250, 1_000),
        (12_000, 3_000),
        (15_000, 1_499),
        (30_000, 1),
    ];
    let terms = Terms {
        premium: 8,
        level: 3,
        top: 8,
        fee: 0,
        ..SUMMED
    };
    let lists = some_orders(s, &rising, 2);
    all_summed(s, terms, &lists);
}

fn many_to_one_account(s: &mut Script) {
    s.part("64 returns to few accounts, under a top of 3, and to one, under a top of 1.");
    for (top, premium, dates, rising) in [
        (3, 2, 4, sixty_four(1_000, 460)),
        (1, 1, 3, sixty_four(10_100, 150)),
    ] {
        let terms = Terms {
            premium,
            level: 1,
            top,
            dates,
            ..SUMMED
        };
        let lists = some_orders(s, &rising, 1);
        all_summed(s, terms, &lists);
    }
}

/// Each as drawn, shuffled, and with a return split in two that stand apart.
fn random_orders(s: &mut Script) {
    s.part(
        "Random contracts whose lists have few factors: as drawn, shuffled, with a return split.",
    );
    for k in 0..6 {
        let terms = match k % 2 {
            0 => s.draw.terms(8, 4),
            _ => s.draw.near_top(8, 4),
        };
        let count = 2 + s.draw.upto(14);
        let mut returns = s.draw.lifting(count);
        let some = s.draw.one(&[6_000, 11_000, 17_000]);
        for (factor, _) in &mut returns {
            *factor = s.draw.one(&[some, some + 100, some + 1_000, *factor]);
        }
        returns[0].1 += returns[count - 1].1 - 1;
        returns[count - 1].1 = 1;
        let mut split = returns.clone();
        split[0].1 -= 1;
        split.push((split[0].0, 1));
        let lists = [returns.clone(), s.draw.shuffled(&returns), split];
        let rates = s.draw.rates(terms.dates);
        for returns in lists {
            s.with_rates(&rates, |s| summed(s, terms, &returns));
        }
    }
}

fn sums(s: &mut Script) {
    every_order(s);
    equal_factors(s);
    same_account_other_excess(s);
    many_to_one_account(s);
    random_orders(s);
}

// ------------------------------- What a host asks for: sizes, values without a table

fn sizes_of_shapes(s: &mut Script) {
    s.part("Sizes: P and Q with N 1, 2, 3 and 40; tables around whole words; the least and the largest contract.");
    for base in [P, Q] {
        for dates in [1, 2, 3, 40] {
            s.sizes(&Terms { dates, ..base }.record());
        }
    }
    let ends = [(1, 1, 1), (1, 1, 2), (4_000, 4_000, 1), (4_000, 4_000, 40)];
    for (top, premium, dates) in SHAPES.into_iter().chain(ends) {
        let terms = Terms {
            premium,
            level: 1,
            top,
            dates,
            ..P
        };
        s.sizes(&terms.record());
    }
}

fn sizes_of_records(s: &mut Script) {
    s.part("Sizes: records of 0 to 24 bytes, of 40 and of 64; each field at the ends of its range and beyond.");
    for length in (0..=24).chain([40, 64]) {
        let mut record = P.record();
        record.resize(length, 0);
        s.sizes(&record);
    }
    for terms in fields_at_ends() {
        s.sizes(&terms.record());
    }
    s.part("Sizes: random contracts, then any bytes.");
    for _ in 0..160 {
        let terms = s.draw.terms(4_000, 40);
        s.sizes(&terms.record());
    }
    for _ in 0..40 {
        let record: Vec<u8> = (0..20).map(|_| s.draw.upto(255) as u8).collect();
        s.sizes(&record);
    }
}

fn no_table_worked_by_hand(s: &mut Script) {
    s.part("Without a table, beside a valuation with one: P and Q, with N 1 and 3, a discount, a step and death rates.");
    for base in [P, Q] {
        for terms in [
            base,
            Terms { dates: 1, ..base },
            Terms { dates: 3, ..base },
            Terms {
                discount: 950_000,
                ..base
            },
            Terms {
                dates: 4,
                step: 100,
                ..base
            },
        ] {
            s.all_beside(terms, &P_RETURNS);
            let rates: Vec<u16> = (0..terms.dates).map(|i| 2_500 * (1 + i)).collect();
            s.with_rates(&rates, |s| s.all_beside(terms, &P_RETURNS));
        }
    }
    s.part("A table used again behind sizes and valuations without a table, accepted and refused.");
    for behaviour in 0..3 {
        s.value(P, &P_RETURNS, behaviour, P.work(), P.table());
        s.sizes(&P.record());
        s.value_no_table(Q, &P_RETURNS, behaviour, Q.work());
        s.value_table(P, &P_RETURNS, P.work(), "=");
        s.sizes(&[]);
        s.value_no_table(P, &P_RETURNS, behaviour, 0);
        s.walk(P, &P_RETURNS, "=", "1,0", 2);
    }
}

fn lengths_without_table(s: &mut Script) {
    s.part("Without a table: working slices of no entry, of one layer, one short, just long enough and longer; tables just long enough and one short beside them.");
    for _ in 0..12 {
        let terms = s.draw.terms(8, 3);
        let count = 1 + s.draw.upto(2);
        let (returns, behaviour) = (s.draw.returns(count), s.draw.upto(2) as u64);
        let (work, table) = (terms.work(), terms.table());
        for work in [0, work / 2, work - 1, work, work + 1, work + 77] {
            for table in [table.saturating_sub(1), table] {
                s.beside(terms, &returns, behaviour, work, table);
            }
        }
    }
    s.part("Top 4,000 without a table: a working slice too short, then long enough for a premium of 1.");
    let highest = Terms {
        level: 1,
        top: 4_000,
        ..P
    };
    for premium in [1, 10, 4_000] {
        s.value_no_table(Terms { premium, ..highest }, &P_RETURNS, 0, 16_003);
    }
    let least = Terms {
        premium: 1,
        ..highest
    };
    s.all_beside(least, &[(30_000, 10_000)]);
}

fn ends_without_table(s: &mut Script) {
    s.part("Without a table: each field of the record at the ends of its range and beyond, each behaviour.");
    for terms in fields_at_ends() {
        let fits = terms.work() <= 65_536 && terms.table() <= 65_536;
        let sized = if fits { terms } else { P };
        for behaviour in 0..3 {
            s.beside(terms, &P_RETURNS, behaviour, sized.work(), sized.table());
        }
    }
    s.part("Without a table: 1 to 64 returns.");
    for count in (1..=64).step_by(7) {
        let (terms, returns) = (s.draw.terms(9, 3), s.draw.returns(count));
        s.all_beside(terms, &returns);
    }
    s.part("Without a table: premiums around 64 and 128; N 40, of which no table has room here.");
    for premium in [63, 64, 65, 127, 128, 129] {
        let terms = Terms {
            premium,
            top: premium + 1,
            dates: 2,
            ..DISCOUNTED
        };
        s.all_beside(terms, &P_RETURNS);
    }
    let long = Terms {
        premium: 39,
        top: 60,
        dates: 40,
        ..DISCOUNTED
    };
    for (behaviour, rate) in (0..3).flat_map(|b| [(b, 0), (b, 120)]) {
        s.with_rates(&[rate; 40], |s| {
            s.value_no_table(long, &P_RETURNS, behaviour, long.work());
        });
    }
}

/// Lists of every length around those that are accepted, factors and weights around their ends.
fn lists_without_table(s: &mut Script) {
    s.part("Without a table: lists of 0 to 9 bytes and of 252 to 261; factors and weights at the ends of their ranges and beyond.");
    for length in (0..=9).chain(252..=261) {
        let count = usize::max(1, length / 4);
        let mut list = list(&s.draw.returns(count));
        list.resize(length, 1);
        let (record, list) = (hex(&P.record()), hex(&list));
        let rates = hex(&rate_list(&P.zero_rates()));
        let line = format!("value_no_table {record} {list} {rates} 2 462:1");
        writeln!(s.text, "{line}").unwrap();
    }
    for (factor, place) in [0, 1, 29_999, 30_000, 30_001, 65_535]
        .into_iter()
        .flat_map(|factor| [(factor, 0), (factor, 1)])
    {
        let mut returns = P_RETURNS;
        returns[place].0 = factor;
        s.all_beside(P, &returns);
    }
    for (weight, place) in [0, 1, 9_999, 10_000, 10_001, 65_535]
        .into_iter()
        .flat_map(|weight| [(weight, 0), (weight, 1)])
    {
        let mut returns = P_RETURNS;
        returns[place].1 = weight;
        returns[1 - place].1 = 10_000_u16.saturating_sub(weight).max(1);
        s.all_beside(P, &returns);
    }
}

fn no_table_with_rates(s: &mut Script, terms: Terms, rates: &[u8]) {
    let (record, list, rates) = (hex(&terms.record()), hex(&list(&P_RETURNS)), hex(rates));
    let (behaviour, work) = (s.draw.upto(2), s.draw.filled_64(terms.work()));
    let line = format!("value_no_table {record} {list} {rates} {behaviour} {work}");
    writeln!(s.text, "{line}").unwrap();
}

fn one_period_without_table(s: &mut Script) {
    s.part("Death rates of one period only, each period in turn, without a table.");
    for (period, rate) in (0..3).flat_map(|p| [1, 5_000, 9_999, 10_000].map(|r| (p, r))) {
        let terms = Terms {
            dates: 3,
            ..DISCOUNTED
        };
        let mut rates = terms.zero_rates();
        rates[period] = rate;
        s.with_rates(&rates, |s| s.all_beside(terms, &P_RETURNS));
    }
}

fn no_table_of_every_date(s: &mut Script) {
    s.part("N from 1 to 40 with random death rates, without a table under each behaviour.");
    for dates in 1..=40 {
        let terms = Terms {
            dates,
            ..s.draw.terms(6, 1)
        };
        let (returns, rates) = s.draw.lists(3, dates);
        s.with_rates(&rates, |s| s.all_beside(terms, &returns));
    }
}

/// Each list as drawn and shuffled.
fn random_without_table(s: &mut Script) {
    s.part("Random contracts without a table: penalty rates that fall, returns above top, lists shuffled.");
    for k in 0..60 {
        let terms = match k % 3 {
            0 => s.draw.terms(10, 6),
            1 => s.draw.falling(10, 6),
            _ => s.draw.near_top(10, 6),
        };
        let count = 1 + s.draw.upto(5);
        let returns = match k % 2 {
            0 => s.draw.lifting(count),
            _ => s.draw.returns(count),
        };
        let (rates, shuffled) = (s.draw.rates(terms.dates), s.draw.shuffled(&returns));
        s.with_rates(&rates, |s| {
            s.all_beside(terms, &returns);
            s.all_beside(terms, &shuffled);
        });
    }
}

fn hosts(s: &mut Script) {
    sizes_of_shapes(s);
    sizes_of_records(s);
    no_table_worked_by_hand(s);
    lengths_without_table(s);
    ends_without_table(s);
    lists_without_table(s);
    refusals(s, &ORDERS[7..]);
    lengths_of_rates(s, no_table_with_rates);
    rates_above_whole(s, no_table_with_rates);
    rates_refused_in_order(s, &ORDERS[7..]);
    one_period_without_table(s);
    no_table_of_every_date(s);
    random_without_table(s);
}

/// The whole script.
pub fn script() -> String {
    let mut s = Script {
        text: String::new(),
        draw: Draw(20_250_101),
        rates: None,
    };
    s.part("The script of the test program, written by `second script`. second/script.rs has its language.");
    unmarked(&mut s);
    worked_by_hand(&mut s);
    falling_rates(&mut s);
    rates_at_zero(&mut s);
    ends_of_fields(&mut s);
    lengths_of_bytes(&mut s);
    ends_of_returns(&mut s);
    refusals(&mut s, &ORDERS[..5]);
    every_count_of_dates(&mut s);
    smallest(&mut s);
    largest(&mut s);
    every_count_of_returns(&mut s);
    around_blocks(&mut s);
    lengths_of_slices(&mut s);
    random_records(&mut s);
    random_bookings(&mut s);
    random_tables(&mut s);
    random_walks(&mut s);
    random_contracts(&mut s);
    maps_worked_by_hand(&mut s);
    refusals(&mut s, &ORDERS[5..6]);
    ends_of_words(&mut s);
    lengths_of_maps(&mut s);
    maps_of_every_date(&mut s);
    random_maps(&mut s);
    payouts(&mut s);
    deaths(&mut s);
    fees(&mut s);
    sums(&mut s);
    hosts(&mut s);
    s.text
}
