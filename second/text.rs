//! A contract record, a return list and death rates as readable text, both ways.
//!
//! One field a line, its name and a figure:
//! `premium`, `level`, `top`, `dates`, `fee`, `penalty`, `discount`, `step`, each once,
//! in any order. Then or between them, in the order of the list, `return FACTOR WEIGHT`,
//! and at most once `rates R0 R1 ..`, the death rates in the order of the periods; left out
//! there are none. `spare`, the two spare bytes, is left out where it is zero. Words are
//! parted by spaces and tabs; what follows a `#` is passed over, and so are blank lines. A
//! figure may be written 1000 or 1,000. Only the width of a field is checked here, so that
//! what the rules refuse can be written too. An error names its line.

const RECORD_BYTES: usize = 20;

/// Name, offset and bytes of each field of a contract record.
const FIELDS: [(&str, usize, usize); 9] = [
    ("premium", 0, 2),
    ("level", 2, 2),
    ("top", 4, 2),
    ("dates", 6, 2),
    ("fee", 8, 2),
    ("penalty", 10, 2),
    ("discount", 12, 4),
    ("step", 16, 2),
    ("spare", 18, 2),
];

/// The field that may be left out.
const SPARE: &str = "spare";

/// A decimal number: digits only, and no larger than 64 bits hold.
pub fn number(text: &str) -> Result<u64, String> {
    let digits = !text.is_empty() && text.bytes().all(|b| b.is_ascii_digit());
    match text.parse() {
        Ok(n) if digits => Ok(n),
        _ => Err(format!("'{text}' is not a number of at most 64 bits")),
    }
}

/// A number as a person writes it: commas, if any, before every third digit from the last.
fn figure(text: &str) -> Result<u64, String> {
    let mut groups = text.split(',');
    let first = groups.next().unwrap_or("").len();
    let grouped = (1..=3).contains(&first) && groups.all(|group| group.len() == 3);
    match number(&text.replace(',', "")) {
        Ok(n) if grouped || !text.contains(',') => Ok(n),
        _ => Err(format!("'{text}' is not a figure such as 1000 or 1,000")),
    }
}

/// The bytes of a figure, low byte first, when it fits the field's width.
fn field_bytes(name: &str, text: &str, width: usize) -> Result<Vec<u8>, String> {
    let n = figure(text)?;
    let bytes = n.to_le_bytes();
    if bytes[width..].iter().any(|b| *b != 0) {
        return Err(format!("{name} {n} does not fit in {width} bytes"));
    }
    Ok(bytes[..width].to_vec())
}

/// What the lines so far say.
struct Packing {
    record: Vec<u8>,
    given: [bool; FIELDS.len()],
    list: Vec<u8>,
    rates: Vec<u8>,
}

impl Packing {
    fn field(&mut self, word: &str, value: &str) -> Result<(), String> {
        let place = FIELDS.iter().position(|(name, _, _)| *name == word);
        let place = place.ok_or_else(|| format!("no such field: {word}"))?;
        if self.given[place] {
            return Err(format!("{word} is given twice"));
        }
        self.given[place] = true;
        let (name, offset, width) = FIELDS[place];
        self.record[offset..offset + width].copy_from_slice(&field_bytes(name, value, width)?);
        Ok(())
    }

    fn line(&mut self, line: &str) -> Result<(), String> {
        let said = line.split('#').next().unwrap_or("");
        let words: Vec<&str> = said.split_ascii_whitespace().collect();
        match words[..] {
            [] => {}
            ["return", factor, weight] => {
                self.list.extend(field_bytes("factor", factor, 2)?);
                self.list.extend(field_bytes("weight", weight, 2)?);
            }
            ["rates", _, ..] if self.rates.is_empty() => {
                for rate in &words[1..] {
                    self.rates.extend(field_bytes("rate", rate, 2)?);
                }
            }
            ["rates", _, ..] => return Err("rates are given twice".to_string()),
            ["return", ..] => return Err("a return has a factor and a weight".to_string()),
            ["rates"] => return Err("no rate is given".to_string()),
            [word, value] => self.field(word, value)?,
            _ => return Err(format!("not understood: {}", said.trim())),
        }
        Ok(())
    }
}

/// Record, list and rates from text.
pub fn pack(text: &str) -> Result<[Vec<u8>; 3], String> {
    let mut packing = Packing {
        record: vec![0; RECORD_BYTES],
        given: [false; FIELDS.len()],
        list: Vec::new(),
        rates: Vec::new(),
    };
    for (i, line) in text.lines().enumerate() {
        let read = packing.line(line);
        read.map_err(|reason| format!("line {}: {reason}", i + 1))?;
    }
    let mut fields = FIELDS.iter().zip(packing.given);
    match fields.find(|((name, _, _), given)| !given && *name != SPARE) {
        Some(((name, _, _), _)) => Err(format!("{name} is not given")),
        None => Ok([packing.record, packing.list, packing.rates]),
    }
}

fn number_in(bytes: &[u8]) -> u64 {
    bytes.iter().rev().fold(0, |n, b| n * 256 + u64::from(*b))
}

/// Text from record, list and rates; `pack` gives the same bytes back.
pub fn show(record: &[u8], list: &[u8], rates: &[u8]) -> Result<String, String> {
    if record.len() != RECORD_BYTES {
        let length = record.len();
        return Err(format!("the record has {length} bytes, not {RECORD_BYTES}"));
    }
    for (name, bytes, width) in [("list", list, 4), ("list of rates", rates, 2)] {
        let length = bytes.len();
        if length % width != 0 {
            return Err(format!(
                "the {name} has {length} bytes, no multiple of {width}"
            ));
        }
    }
    let mut text = String::new();
    for (name, offset, width) in FIELDS {
        let value = number_in(&record[offset..offset + width]);
        if name != SPARE || value != 0 {
            text += &format!("{name} {value}\n");
        }
    }
    for bytes in list.chunks(4) {
        let (factor, weight) = (number_in(&bytes[..2]), number_in(&bytes[2..]));
        text += &format!("return {factor} {weight}\n");
    }
    if !rates.is_empty() {
        let rates: Vec<String> = rates.chunks(2).map(|b| number_in(b).to_string()).collect();
        text += &format!("rates {}\n", rates.join(" "));
    }
    Ok(text)
}
