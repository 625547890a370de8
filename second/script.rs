//! `second run` and `second run full`: operations from a script, one a line, answered
//! one a line. Fields are parted by single spaces.
//!
//! Lines of a script:
//!
//! ```text
//! check RECORD
//! sizes RECORD
//! value RECORD LIST RATES BEHAVIOUR WORK TABLE
//! value_no_table RECORD LIST RATES BEHAVIOUR WORK
//! value_map RECORD LIST RATES BEHAVIOUR WORK TABLE MAP
//! fee RECORD LIST RATES BEHAVIOUR WANTED WORK
//! value_table RECORD LIST RATES WORK TABLE
//! book RECORD DATE ACCOUNT GUARANTEE AMOUNT BUFFER
//! walk RECORD LIST TABLE NUMBERS CASH
//! ```
//!
//! RECORD, LIST, RATES: bytes as lowercase hex, `-` for none.
//! BEHAVIOUR, WANTED, DATE, ACCOUNT, GUARANTEE, AMOUNT: decimal, up to 64 bits.
//! WORK, MAP, CASH (64-bit entries), TABLE, NUMBERS (16-bit), BUFFER (8-bit): a slice, as
//! - `-`: no entries;
//! - `5,0,12`: these entries, decimal;
//! - `LEN:SEED`: LEN entries, entry i being (SEED + 7919 × i) mod M, where M is 251 for
//!   8-bit, 65521 for 16-bit and 18446744073709551557 for 64-bit entries. LEN is at most
//!   2^30; a SEED of M or more counts as SEED mod M;
//! - `LEN:SEED:LIMIT`: the same, each entry then taken mod LIMIT (LIMIT 1: all zeros).
//!
//! A TABLE may also be
//! - `=`: the table as the last operation that had one left it, none before the first;
//! - `=I:V`: the same with V in entry I, of those there are.
//!
//! A check, sizes, a valuation without a table, a search for a fee and a booking have no table,
//! so that `=` behind them is still the one before. A line that is not understood leaves no
//! table.
//!
//! Answers:
//!
//! ```text
//! check           NUMBER PLACE
//! sizes           NUMBER PLACE WORK TABLE MAP
//! value           NUMBER PLACE VALUE MARGIN D(WORK) D(TABLE)
//! value_no_table  NUMBER PLACE VALUE MARGIN D(WORK)
//! value_map       NUMBER PLACE VALUE MARGIN COUNT D(WORK) D(TABLE) D(MAP)
//! fee             NUMBER PLACE FEE VALUE MARGIN D(WORK)
//! value_table     NUMBER PLACE VALUE MARGIN D(WORK) D(TABLE)
//! book            NUMBER PLACE D(BUFFER)
//! walk            NUMBER PLACE D(TABLE) D(CASH)
//! ```
//!
//! WORK, TABLE and MAP of sizes are how many entries or words are needed.
//!
//! D(slice) is a digest of the slice's whole contents after the call: h = 7, then for
//! each entry x: h = (h × 31 + x + 1) mod 4294967291. An entry of 64 bits is first taken
//! mod 4294967291, which changes no digest and keeps the sum within 64 bits. With `full`
//! the contents of the same slices follow, in the same order: entries as `5,0,12`, the
//! buffer as hex, `-` for none.
//!
//! Blank lines and lines that start with `#` get no answer. A line that is not
//! understood gets the answer `error`, its reason on standard error, and the exit
//! status is then 1.
//!
//! The test program (crates/gmwbtest) answers the same lines, without `full`. It takes
//! entries one by one for 16-bit slices only, and no more than it has room for
//! (cases.rs); it answers any other line by `error`.

use crate::gmwb;
use crate::text::number;
use std::io::{self, BufRead, Write};

const LARGEST_SLICE: u64 = 1 << 30;

/// Primes: a filled slice uses nearly the full width of its entries.
pub const MOD_8: u64 = 251;
pub const MOD_16: u64 = 65_521;
pub const MOD_64: u64 = 18_446_744_073_709_551_557;

/// A prime: the digest stays below 2^64 without 128-bit products.
const MOD_DIGEST: u64 = 4_294_967_291;

/// Entry i of a slice filled from a seed. The sum may pass 64 bits.
pub fn fill(seed: u64, i: u64, modulus: u64) -> u64 {
    let sum = u128::from(seed % modulus) + u128::from(7_919 * i);
    (sum % u128::from(modulus)) as u64
}

pub fn digest<T: Copy + Into<u64>>(entries: &[T]) -> u64 {
    entries.iter().fold(7, |h, x| {
        (h * 31 + (*x).into() % MOD_DIGEST + 1) % MOD_DIGEST
    })
}

fn bytes_in(text: &str) -> Result<Vec<u8>, String> {
    if text == "-" {
        return Ok(Vec::new());
    }
    let digit = |b: &u8| match b {
        b'0'..=b'9' => Ok(b - b'0'),
        b'a'..=b'f' => Ok(b - b'a' + 10),
        _ => Err(format!("'{text}' is not lowercase hex")),
    };
    let digits: Vec<u8> = text.bytes().map(|b| digit(&b)).collect::<Result<_, _>>()?;
    if digits.is_empty() || digits.len() % 2 != 0 {
        return Err(format!("'{text}' is not whole bytes"));
    }
    Ok(digits.chunks(2).map(|d| d[0] * 16 + d[1]).collect())
}

fn slice_in<T: TryFrom<u64>>(text: &str, modulus: u64) -> Result<Vec<T>, String> {
    let narrow = |n: u64| T::try_from(n).map_err(|_| format!("entry {n} is too large"));
    if text == "-" {
        return Ok(Vec::new());
    }
    let Some((length, pattern)) = text.split_once(':') else {
        return text.split(',').map(|x| narrow(number(x)?)).collect();
    };
    let length = number(length)?;
    let (seed, limit) = match pattern.split_once(':') {
        Some((seed, limit)) => (number(seed)?, number(limit)?),
        None => (number(pattern)?, modulus),
    };
    if length > LARGEST_SLICE || limit == 0 {
        return Err(format!("'{text}' is too long or has limit 0"));
    }
    let mut entries = Vec::new();
    if entries.try_reserve_exact(length as usize).is_err() {
        return Err(format!("no memory for '{text}'"));
    }
    for i in 0..length {
        entries.push(narrow(fill(seed, i, modulus) % limit)?);
    }
    Ok(entries)
}

fn listed<T: ToString>(entries: &[T]) -> String {
    if entries.is_empty() {
        return "-".to_string();
    }
    let words: Vec<String> = entries.iter().map(T::to_string).collect();
    words.join(",")
}

fn hex(bytes: &[u8]) -> String {
    if bytes.is_empty() {
        return "-".to_string();
    }
    bytes.iter().map(|b| format!("{b:02x}")).collect()
}

/// A table: a slice, or the last table, whole or with an entry changed.
fn table_in(text: &str, last: &[u16]) -> Result<Vec<u16>, String> {
    let Some(change) = text.strip_prefix('=') else {
        return slice_in(text, MOD_16);
    };
    let mut table = last.to_vec();
    if change.is_empty() {
        return Ok(table);
    }
    let Some((index, value)) = change.split_once(':') else {
        return Err(format!("'{text}' is not =I:V"));
    };
    let (index, value) = (number(index)?, number(value)?);
    let entry = usize::try_from(index).ok().and_then(|i| table.get_mut(i));
    let entry = entry.ok_or(format!("the last table has no entry {index}"))?;
    *entry = u16::try_from(value).map_err(|_| format!("entry {value} is too large"))?;
    Ok(table)
}

/// What a contract is valued by, with or without a map.
#[derive(Clone)]
pub struct Valuing {
    pub record: Vec<u8>,
    pub list: Vec<u8>,
    pub rates: Vec<u8>,
    pub behaviour: u64,
    pub work: Vec<u64>,
    pub table: Vec<u16>,
}

/// A line that is understood. The slices are lent to the call and hold what it leaves.
#[derive(Clone)]
pub enum Operation {
    Check {
        record: Vec<u8>,
    },
    Sizes {
        record: Vec<u8>,
    },
    Value(Valuing),
    ValueNoTable {
        record: Vec<u8>,
        list: Vec<u8>,
        rates: Vec<u8>,
        behaviour: u64,
        work: Vec<u64>,
    },
    ValueMap(Valuing, Vec<u64>),
    Fee {
        record: Vec<u8>,
        list: Vec<u8>,
        rates: Vec<u8>,
        behaviour: u64,
        wanted: u64,
        work: Vec<u64>,
    },
    ValueTable {
        record: Vec<u8>,
        list: Vec<u8>,
        rates: Vec<u8>,
        work: Vec<u64>,
        table: Vec<u16>,
    },
    Book {
        record: Vec<u8>,
        date: u64,
        account: u64,
        guarantee: u64,
        amount: u64,
        buffer: Vec<u8>,
    },
    Walk {
        record: Vec<u8>,
        list: Vec<u8>,
        table: Vec<u16>,
        numbers: Vec<u16>,
        cash: Vec<u64>,
    },
}

fn valuing_in(fields: [&str; 6], last: &[u16]) -> Result<Valuing, String> {
    let [record, list, rates, behaviour, work, table] = fields;
    Ok(Valuing {
        record: bytes_in(record)?,
        list: bytes_in(list)?,
        rates: bytes_in(rates)?,
        behaviour: number(behaviour)?,
        work: slice_in(work, MOD_64)?,
        table: table_in(table, last)?,
    })
}

/// The operation in a line, behind one that left the table `last`.
fn operation(line: &str, last: &[u16]) -> Result<Operation, String> {
    let words: Vec<&str> = line.split(' ').collect();
    Ok(match words[..] {
        ["check", record] => Operation::Check {
            record: bytes_in(record)?,
        },
        ["sizes", record] => Operation::Sizes {
            record: bytes_in(record)?,
        },
        ["value", record, list, rates, behaviour, work, table] => {
            let fields = [record, list, rates, behaviour, work, table];
            Operation::Value(valuing_in(fields, last)?)
        }
        ["value_no_table", record, list, rates, behaviour, work] => Operation::ValueNoTable {
            record: bytes_in(record)?,
            list: bytes_in(list)?,
            rates: bytes_in(rates)?,
            behaviour: number(behaviour)?,
            work: slice_in(work, MOD_64)?,
        },
        ["value_map", record, list, rates, behaviour, work, table, map] => {
            let fields = [record, list, rates, behaviour, work, table];
            Operation::ValueMap(valuing_in(fields, last)?, slice_in(map, MOD_64)?)
        }
        ["fee", record, list, rates, behaviour, wanted, work] => Operation::Fee {
            record: bytes_in(record)?,
            list: bytes_in(list)?,
            rates: bytes_in(rates)?,
            behaviour: number(behaviour)?,
            wanted: number(wanted)?,
            work: slice_in(work, MOD_64)?,
        },
        ["value_table", record, list, rates, work, table] => Operation::ValueTable {
            record: bytes_in(record)?,
            list: bytes_in(list)?,
            rates: bytes_in(rates)?,
            work: slice_in(work, MOD_64)?,
            table: table_in(table, last)?,
        },
        ["book", record, date, account, guarantee, amount, buffer] => Operation::Book {
            record: bytes_in(record)?,
            date: number(date)?,
            account: number(account)?,
            guarantee: number(guarantee)?,
            amount: number(amount)?,
            buffer: slice_in(buffer, MOD_8)?,
        },
        ["walk", record, list, table, numbers, cash] => Operation::Walk {
            record: bytes_in(record)?,
            list: bytes_in(list)?,
            table: table_in(table, last)?,
            numbers: slice_in(numbers, MOD_16)?,
            cash: slice_in(cash, MOD_64)?,
        },
        _ => return Err("no such operation, or a wrong count of fields".to_string()),
    })
}

fn told(a: gmwb::Answer) -> String {
    format!("{} {}", a.number, a.place)
}

fn told_figures(v: gmwb::Valued) -> String {
    format!("{} {} {} {}", v.number, v.place, v.value, v.margin)
}

fn told_sizes(s: gmwb::Sizes) -> String {
    let (work, table, map) = (s.work, s.table, s.map);
    format!("{} {} {work} {table} {map}", s.number, s.place)
}

fn told_no_table(v: gmwb::Valued, work: &[u64], full: bool) -> String {
    let mut line = format!("{} {}", told_figures(v), digest(work));
    if full {
        line += &format!(" {}", listed(work));
    }
    line
}

fn told_value(v: gmwb::Valued, work: &[u64], table: &[u16], full: bool) -> String {
    let mut line = told_figures(v);
    line += &format!(" {} {}", digest(work), digest(table));
    if full {
        line += &format!(" {} {}", listed(work), listed(table));
    }
    line
}

fn told_map(m: gmwb::Mapped, work: &[u64], table: &[u16], map: &[u64], full: bool) -> String {
    let mut line = format!("{} {}", told_figures(m.valued), m.count);
    line += &format!(" {} {} {}", digest(work), digest(table), digest(map));
    if full {
        line += &format!(" {} {} {}", listed(work), listed(table), listed(map));
    }
    line
}

fn told_fee(f: gmwb::Found, work: &[u64], full: bool) -> String {
    let (v, fee) = (f.valued, f.fee);
    let figures = format!("{} {} {fee} {} {}", v.number, v.place, v.value, v.margin);
    let mut line = format!("{figures} {}", digest(work));
    if full {
        line += &format!(" {}", listed(work));
    }
    line
}

fn told_booking(a: gmwb::Answer, buffer: &[u8], full: bool) -> String {
    let mut line = format!("{} {}", told(a), digest(buffer));
    if full {
        line += &format!(" {}", hex(buffer));
    }
    line
}

fn told_walk(a: gmwb::Answer, table: &[u16], cash: &[u64], full: bool) -> String {
    let mut line = format!("{} {} {}", told(a), digest(table), digest(cash));
    if full {
        line += &format!(" {} {}", listed(table), listed(cash));
    }
    line
}

/// Makes the call; gives its answer line.
fn answered(operation: &mut Operation, full: bool) -> String {
    match operation {
        Operation::Check { record } => told(gmwb::check(record)),
        Operation::Sizes { record } => told_sizes(gmwb::sizes(record)),
        Operation::Value(v) => {
            let (work, table) = (&mut v.work, &mut v.table);
            let answer = gmwb::value(&v.record, &v.list, &v.rates, v.behaviour, work, table);
            told_value(answer, work, table, full)
        }
        Operation::ValueNoTable {
            record,
            list,
            rates,
            behaviour,
            work,
        } => {
            let answer = gmwb::value_no_table(record, list, rates, *behaviour, work);
            told_no_table(answer, work, full)
        }
        Operation::ValueMap(v, map) => {
            let (record, list, rates) = (&v.record, &v.list, &v.rates);
            let (work, table) = (&mut v.work, &mut v.table);
            let answer = gmwb::value_map(record, list, rates, v.behaviour, work, table, map);
            told_map(answer, work, table, map, full)
        }
        Operation::Fee {
            record,
            list,
            rates,
            behaviour,
            wanted,
            work,
        } => {
            let answer = gmwb::fee(record, list, rates, *behaviour, *wanted, work);
            told_fee(answer, work, full)
        }
        Operation::ValueTable {
            record,
            list,
            rates,
            work,
            table,
        } => {
            let answer = gmwb::value_table(record, list, rates, work, table);
            told_value(answer, work, table, full)
        }
        Operation::Book {
            record,
            date,
            account,
            guarantee,
            amount,
            buffer,
        } => {
            let answer = gmwb::book(record, *date, *account, *guarantee, *amount, buffer);
            told_booking(answer, buffer, full)
        }
        Operation::Walk {
            record,
            list,
            table,
            numbers,
            cash,
        } => {
            let answer = gmwb::walk(record, list, table, numbers, cash);
            told_walk(answer, table, cash, full)
        }
    }
}

/// The table that an operation had, if it had one.
fn table_of(operation: Operation) -> Option<Vec<u16>> {
    match operation {
        Operation::Value(v) | Operation::ValueMap(v, _) => Some(v.table),
        Operation::ValueTable { table, .. } | Operation::Walk { table, .. } => Some(table),
        Operation::Check { .. }
        | Operation::Sizes { .. }
        | Operation::ValueNoTable { .. }
        | Operation::Fee { .. }
        | Operation::Book { .. } => None,
    }
}

/// A script as far as it is answered: the table that its last operation with one left.
#[derive(Default)]
pub struct Session {
    last: Vec<u16>,
}

impl Session {
    /// The table that the last operation with one left.
    pub fn table(&self) -> &[u16] {
        &self.last
    }

    /// The operation in the next line, as it stands before the call.
    pub fn operation(&self, line: &str) -> Result<Operation, String> {
        operation(line, &self.last)
    }

    /// The answer to the next line.
    pub fn answer(&mut self, line: &str, full: bool) -> Result<String, String> {
        let read = self.operation(line);
        if read.is_err() {
            self.last.clear();
        }
        let mut operation = read?;
        let text = answered(&mut operation, full);
        if let Some(table) = table_of(operation) {
            self.last = table;
        }
        Ok(text)
    }
}

/// The answer to a line that is a script by itself.
pub fn answer(line: &str, full: bool) -> Result<String, String> {
    Session::default().answer(line, full)
}

/// Answers a script line by line, so that it can also be driven through a pipe.
/// Gives true when every line was understood.
pub fn run(input: impl BufRead, mut output: impl Write, full: bool) -> io::Result<bool> {
    let mut understood = true;
    let mut session = Session::default();
    for (index, line) in input.split(b'\n').enumerate() {
        let line = String::from_utf8_lossy(&line?).into_owned();
        if line.is_empty() || line.starts_with('#') {
            continue;
        }
        match session.answer(&line, full) {
            Ok(text) => writeln!(output, "{text}")?,
            Err(reason) => {
                understood = false;
                eprintln!("line {}: {reason}", index + 1);
                writeln!(output, "error")?;
            }
        }
        output.flush()?;
    }
    Ok(understood)
}
