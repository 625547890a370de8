//! The three programs, each without a map of surrender and with one and searching for a fee, the
//! engine also without a table, and what a run of one leaves.

use crate::inputs::Input;
use crate::{gmwb, tuned};
use gmwb::{Found, Mapped, Valued};
use std::time::Instant;

#[derive(Clone, Copy)]
enum Call {
    Value(fn(&[u8], &[u8], &[u8], u64, &mut [u64], &mut [u16]) -> Valued),
    ValueMap(fn(&[u8], &[u8], &[u8], u64, &mut [u64], &mut [u16], &mut [u64]) -> Mapped),
    ValueNoTable(fn(&[u8], &[u8], &[u8], u64, &mut [u64]) -> Valued),
    Fee(fn(&[u8], &[u8], &[u8], u64, u64, &mut [u64]) -> Found),
}

#[derive(Clone, Copy)]
pub struct Program {
    pub name: &'static str,
    call: Call,
}

/// The proved engine, through the C interface (include/gmwb.h).
pub const ENGINE: Program = Program {
    name: "engine",
    call: Call::Value(engine),
};
pub const ENGINE_MAP: Program = Program {
    name: "engine with a map",
    call: Call::ValueMap(engine_map),
};
pub const ENGINE_NO_TABLE: Program = Program {
    name: "engine without a table",
    call: Call::ValueNoTable(engine_no_table),
};
pub const ENGINE_FEE: Program = Program {
    name: "engine's search",
    call: Call::Fee(engine_fee),
};
/// second/gmwb.rs.
pub const PLAIN: Program = Program {
    name: "plain",
    call: Call::Value(gmwb::value),
};
pub const PLAIN_MAP: Program = Program {
    name: "plain with a map",
    call: Call::ValueMap(gmwb::value_map),
};
pub const PLAIN_FEE: Program = Program {
    name: "plain's search",
    call: Call::Fee(gmwb::fee),
};
/// bench/tuned.rs.
pub const TUNED: Program = Program {
    name: "tuned",
    call: Call::Value(tuned::value),
};
pub const TUNED_MAP: Program = Program {
    name: "tuned with a map",
    call: Call::ValueMap(tuned::value_map),
};
pub const TUNED_FEE: Program = Program {
    name: "tuned's search",
    call: Call::Fee(tuned::fee),
};

extern "C" {
    fn gmwb_value(
        record: *const u8,
        record_len: usize,
        list: *const u8,
        list_len: usize,
        rates: *const u8,
        rates_len: usize,
        behaviour: u64,
        work: *mut u64,
        work_len: usize,
        table: *mut u16,
        table_len: usize,
        place: *mut u64,
        value: *mut u64,
        margin: *mut i64,
    ) -> u32;
    fn gmwb_value_map(
        record: *const u8,
        record_len: usize,
        list: *const u8,
        list_len: usize,
        rates: *const u8,
        rates_len: usize,
        behaviour: u64,
        work: *mut u64,
        work_len: usize,
        table: *mut u16,
        table_len: usize,
        map: *mut u64,
        map_len: usize,
        place: *mut u64,
        value: *mut u64,
        margin: *mut i64,
        count: *mut u64,
    ) -> u32;
    fn gmwb_fee(
        record: *const u8,
        record_len: usize,
        list: *const u8,
        list_len: usize,
        rates: *const u8,
        rates_len: usize,
        behaviour: u64,
        wanted: u64,
        work: *mut u64,
        work_len: usize,
        place: *mut u64,
        fee: *mut u64,
        value: *mut u64,
        margin: *mut i64,
    ) -> u32;
    fn gmwb_value_no_table(
        record: *const u8,
        record_len: usize,
        list: *const u8,
        list_len: usize,
        rates: *const u8,
        rates_len: usize,
        behaviour: u64,
        work: *mut u64,
        work_len: usize,
        place: *mut u64,
        value: *mut u64,
        margin: *mut i64,
    ) -> u32;
}

fn engine(
    record: &[u8],
    list: &[u8],
    rates: &[u8],
    behaviour: u64,
    work: &mut [u64],
    table: &mut [u16],
) -> Valued {
    // Nothing that the call could leave.
    let (mut place, mut value, mut margin) = (u64::MAX, u64::MAX, i64::MAX);
    // SAFETY: the declaration is that of include/gmwb.h; every pointer comes with the length
    // of its slice, and the slices and numbers do not overlap.
    let number = unsafe {
        gmwb_value(
            record.as_ptr(),
            record.len(),
            list.as_ptr(),
            list.len(),
            rates.as_ptr(),
            rates.len(),
            behaviour,
            work.as_mut_ptr(),
            work.len(),
            table.as_mut_ptr(),
            table.len(),
            &mut place,
            &mut value,
            &mut margin,
        )
    };
    Valued {
        number: number.into(),
        place,
        value,
        margin,
    }
}

fn engine_map(
    record: &[u8],
    list: &[u8],
    rates: &[u8],
    behaviour: u64,
    work: &mut [u64],
    table: &mut [u16],
    map: &mut [u64],
) -> Mapped {
    let (mut place, mut value, mut margin) = (u64::MAX, u64::MAX, i64::MAX);
    let mut count = u64::MAX;
    // SAFETY: as in `engine`.
    let number = unsafe {
        gmwb_value_map(
            record.as_ptr(),
            record.len(),
            list.as_ptr(),
            list.len(),
            rates.as_ptr(),
            rates.len(),
            behaviour,
            work.as_mut_ptr(),
            work.len(),
            table.as_mut_ptr(),
            table.len(),
            map.as_mut_ptr(),
            map.len(),
            &mut place,
            &mut value,
            &mut margin,
            &mut count,
        )
    };
    let valued = Valued {
        number: number.into(),
        place,
        value,
        margin,
    };
    Mapped { valued, count }
}

fn engine_fee(
    record: &[u8],
    list: &[u8],
    rates: &[u8],
    behaviour: u64,
    wanted: u64,
    work: &mut [u64],
) -> Found {
    let (mut place, mut value, mut margin) = (u64::MAX, u64::MAX, i64::MAX);
    let mut fee = u64::MAX;
    // SAFETY: as in `engine`.
    let number = unsafe {
        gmwb_fee(
            record.as_ptr(),
            record.len(),
            list.as_ptr(),
            list.len(),
            rates.as_ptr(),
            rates.len(),
            behaviour,
            wanted,
            work.as_mut_ptr(),
            work.len(),
            &mut place,
            &mut fee,
            &mut value,
            &mut margin,
        )
    };
    let valued = Valued {
        number: number.into(),
        place,
        value,
        margin,
    };
    Found { valued, fee }
}

fn engine_no_table(
    record: &[u8],
    list: &[u8],
    rates: &[u8],
    behaviour: u64,
    work: &mut [u64],
) -> Valued {
    let (mut place, mut value, mut margin) = (u64::MAX, u64::MAX, i64::MAX);
    // SAFETY: as in `engine`.
    let number = unsafe {
        gmwb_value_no_table(
            record.as_ptr(),
            record.len(),
            list.as_ptr(),
            list.len(),
            rates.as_ptr(),
            rates.len(),
            behaviour,
            work.as_mut_ptr(),
            work.len(),
            &mut place,
            &mut value,
            &mut margin,
        )
    };
    Valued {
        number: number.into(),
        place,
        value,
        margin,
    }
}

/// What a call tells: number, place, value and margin, and what else it does.
#[derive(Debug)]
pub struct Told {
    pub number: u64,
    place: u64,
    pub value: u64,
    margin: i64,
    count: Option<u64>,
    pub fee: Option<u64>,
}

impl From<Valued> for Told {
    fn from(valued: Valued) -> Told {
        Told {
            number: valued.number,
            place: valued.place,
            value: valued.value,
            margin: valued.margin,
            count: None,
            fee: None,
        }
    }
}

impl Told {
    /// What only one of the two tells is not compared.
    fn differs(&self, other: &Told) -> bool {
        let all = |t: &Told| (t.number, t.place, t.value, t.margin);
        all(self) != all(other)
            || both_differ(&self.count, &other.count)
            || both_differ(&self.fee, &other.fee)
    }
}

fn both_differ<T: PartialEq>(one: &Option<T>, other: &Option<T>) -> bool {
    one.is_some() && other.is_some() && one != other
}

/// All that a call tells and leaves; table and map where it takes one.
pub struct Outcome {
    pub told: Told,
    work: Vec<u64>,
    table: Option<Vec<u16>>,
    map: Option<Vec<u64>>,
}

impl Program {
    /// One run on freshly filled slices; filling them is not timed.
    pub fn run(&self, input: &Input) -> (Outcome, f64) {
        let mut work = vec![0xA5A5_A5A5_A5A5_A5A5; input.work_len];
        let mut table = vec![0xA5A5; input.table_len];
        let mut map = vec![0xA5A5_A5A5_A5A5_A5A5; input.map_len];
        let (record, list, rates) = (&input.record, &input.list, &input.rates);
        let behaviour = input.behaviour;
        let start = Instant::now();
        let told: Told = match self.call {
            Call::Value(call) => call(record, list, rates, behaviour, &mut work, &mut table).into(),
            Call::ValueMap(call) => {
                let m = call(
                    record, list, rates, behaviour, &mut work, &mut table, &mut map,
                );
                Told {
                    count: Some(m.count),
                    ..m.valued.into()
                }
            }
            Call::ValueNoTable(call) => call(record, list, rates, behaviour, &mut work).into(),
            Call::Fee(call) => {
                let found = call(record, list, rates, behaviour, input.wanted, &mut work);
                Told {
                    fee: Some(found.fee),
                    ..found.valued.into()
                }
            }
        };
        let seconds = start.elapsed().as_secs_f64();
        let takes_table = matches!(self.call, Call::Value(_) | Call::ValueMap(_));
        let takes_map = matches!(self.call, Call::ValueMap(_));
        let outcome = Outcome {
            told,
            work,
            table: takes_table.then_some(table),
            map: takes_map.then_some(map),
        };
        (outcome, seconds)
    }
}

impl Outcome {
    /// Says what differs first, if anything does; table and map are compared where both have
    /// them.
    pub fn difference(&self, other: &Outcome) -> Option<String> {
        if self.told.differs(&other.told) {
            return Some(format!("{:?} and {:?}", self.told, other.told));
        }
        let tables = self.table.as_deref().zip(other.table.as_deref());
        let maps = self.map.as_deref().zip(other.map.as_deref());
        let place = |what, at| format!("{what} {at}");
        first_difference((&self.work, &other.work))
            .map(|at| place("working slice, entry", at))
            .or_else(|| Some(place("table, entry", first_difference(tables?)?)))
            .or_else(|| Some(place("map, word", first_difference(maps?)?)))
    }
}

fn first_difference<T: PartialEq>((one, other): (&[T], &[T])) -> Option<usize> {
    let longer = one.len().max(other.len());
    (0..longer).find(|at| one.get(*at) != other.get(*at))
}
