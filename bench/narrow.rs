//! Times the engine against its last edition with 32-bit values, in one process and on the same
//! inputs. That edition drops what a return lifts above top, so no return here does, and knows no
//! death rates, so those of the engine are zero.
//! Exit status 1 if answers, tables or working slices differ.

// Only sizes are taken from it.
#[allow(dead_code)]
mod inputs;

use inputs::{size, Input, Size, DYNAMIC, MIXED, STATIC};
use std::process::ExitCode;
use std::time::Instant;

const RUNS: usize = 40;

/// A size with returns up to 1.0.
const fn falling(size: Size) -> Size {
    Size {
        highest: 10_000,
        ..size
    }
}

/// In the second, values could be so large that discount × sum passes 64 bits.
const SIZES: [Size; 2] = [
    falling(size(400, 200, 10, 20, 32)),
    falling(size(4_000, 40, 4, 40, 32)),
];

/// All that a call tells and leaves, in numbers of 64 bits.
#[derive(Debug, PartialEq)]
struct Outcome {
    number: u32,
    place: u64,
    value: u64,
    margin: i64,
    work: Vec<u64>,
    table: Vec<u16>,
}

/// A function for one run of an edition's gmwb_value, whose values have entries of the type named,
/// on freshly filled slices; filling them is not timed. An edition that takes death rates names
/// them.
macro_rules! edition {
    ($run:ident, $call:ident, $entry:ty $(, $rates:ident)?) => {
        fn $run(input: &Input) -> (Outcome, f64) {
            extern "C" {
                fn $call(
                    record: *const u8,
                    record_len: usize,
                    list: *const u8,
                    list_len: usize,
                    $($rates: *const u8, rates_len: usize,)?
                    behaviour: u64,
                    work: *mut $entry,
                    work_len: usize,
                    table: *mut u16,
                    table_len: usize,
                    place: *mut u64,
                    value: *mut $entry,
                    margin: *mut i64,
                ) -> u32;
            }
            let filling = 0xA5A5_A5A5;
            let mut work: Vec<$entry> = vec![filling; input.work_len];
            let mut table = vec![0xA5A5; input.table_len];
            let (mut place, mut value, mut margin) = (0, filling, 0);
            let start = Instant::now();
            // SAFETY: the declaration is that of include/gmwb.h in the edition; every pointer comes
            // with the length of its slice, and the slices and numbers do not overlap.
            let number = unsafe {
                $call(
                    input.record.as_ptr(),
                    input.record.len(),
                    input.list.as_ptr(),
                    input.list.len(),
                    $(input.$rates.as_ptr(), input.$rates.len(),)?
                    input.behaviour,
                    work.as_mut_ptr(),
                    work.len(),
                    table.as_mut_ptr(),
                    table.len(),
                    &mut place,
                    &mut value,
                    &mut margin,
                )
            };
            let seconds = start.elapsed().as_secs_f64();
            let outcome = Outcome {
                number,
                place,
                value: value.into(),
                margin,
                work: work.into_iter().map(u64::from).collect(),
                table,
            };
            (outcome, seconds)
        }
    };
}

edition!(run_wide, gmwb_value, u64, rates);
// gmwb_value of the 32-bit edition; see bench/run.
edition!(run_narrow, narrow_value, u32);

/// Runs the two editions in turn. Gives the seconds of their best runs, and whether each run
/// was accepted with equal outcomes.
fn timed(input: &Input) -> ([f64; 2], bool) {
    let (mut best, mut right) = ([f64::MAX; 2], true);
    for _ in 0..RUNS {
        let (wide, wide_seconds) = run_wide(input);
        let (narrow, narrow_seconds) = run_narrow(input);
        right &= wide.number == 0 && wide == narrow;
        best = [best[0].min(wide_seconds), best[1].min(narrow_seconds)];
    }
    (best, right)
}

fn main() -> ExitCode {
    println!("engine  {}", env!("BENCH_ENGINE"));
    println!("Rust    {}\n", env!("BENCH_RUST"));
    println!("seconds, best of {RUNS} runs");
    println!("behaviour   top    U   G   N  returns     64-bit     32-bit  64-bit/32-bit");
    let mut all_right = true;
    for size in &SIZES {
        let Size {
            top,
            premium,
            level,
            dates,
            returns,
            ..
        } = *size;
        for (name, behaviour) in [("dynamic", DYNAMIC), ("static", STATIC), ("mixed", MIXED)] {
            let ([wide, narrow], right) = timed(&size.input(behaviour));
            let ratio = wide / narrow;
            print!("{name:<9}{top:>6}{premium:>5}{level:>4}{dates:>4}{returns:>9}");
            println!("{wide:>11.5}{narrow:>11.5}{ratio:>15.3}");
            if !right {
                eprintln!("differ: {name}");
            }
            all_right &= right;
        }
    }
    if !all_right {
        return ExitCode::FAILURE;
    }
    println!("\nnumbers, values, margins, tables and working slices are equal");
    ExitCode::SUCCESS
}
