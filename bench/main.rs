//! Times the proved engine against the plain program and the tuned one, in one process and on
//! the same inputs. Exit status 1 if their answers, tables, working slices, maps or fees differ.
//! With the word `check` it times nothing and compares them on random small contracts; with `many`
//! it times only many returns to one account.

mod check;
#[path = "../second/gmwb.rs"]
mod gmwb;
mod inputs;
mod programs;
mod tuned;

use inputs::{size, Input, Size, DYNAMIC, MIXED, STATIC};
use programs::{Outcome, Program, ENGINE, ENGINE_NO_TABLE, ENGINE_FEE, ENGINE_MAP};
use programs::{PLAIN, TUNED, TUNED_FEE, TUNED_MAP};
use std::process::ExitCode;
use std::thread;

/// About a minute of the plain program; it is left out above that.
const MOST_PLAIN_STEPS: u64 = 25_000_000_000;

/// A program is run until it has had this many seconds, or these runs and a second; four seconds
/// where a run takes less than a millisecond, which a busy spell of the machine disturbs more.
const SECONDS: f64 = 8.0;
const ENOUGH_RUNS: usize = 40;

/// The size of the second row of `TIMED` at other penalty rates.
const fn at_penalty(penalty: u16) -> Size {
    Size {
        penalty,
        ..size(400, 200, 10, 20, 32)
    }
}

/// The same size at penalty rate 2,000, with a step.
const fn at_step(step: u16) -> Size {
    Size {
        step,
        ..at_penalty(2_000)
    }
}

/// A size with returns up to 3.0.
const fn lifting(size: Size) -> Size {
    Size {
        highest: 30_000,
        ..size
    }
}

/// A size with death rates, none of them zero.
const fn dying(size: Size) -> Size {
    Size {
        deaths: (100, 500),
        ..size
    }
}

/// How much the engine passes over depends on what withdrawing above m costs.
const PENALTIES: [Size; 5] = [
    at_penalty(0),
    at_penalty(100),
    at_penalty(500),
    at_penalty(2_000),
    at_penalty(10_000),
];

/// The rate reaches zero by the last of these.
const STEPS: [Size; 5] = [
    at_step(0),
    at_step(10),
    at_step(25),
    at_step(100),
    at_step(500),
];

/// Where top is 4,000 values could be so large that discount × sum passes 64 bits.
const TIMED: [(&str, u64, Size); 15] = [
    ("dynamic", DYNAMIC, size(100, 50, 5, 10, 8)),
    ("dynamic", DYNAMIC, size(400, 200, 10, 20, 32)),
    ("dynamic", DYNAMIC, size(400, 400, 20, 20, 32)),
    ("dynamic", DYNAMIC, size(1_000, 500, 25, 20, 32)),
    ("static", STATIC, size(400, 200, 10, 20, 32)),
    ("mixed", MIXED, size(400, 200, 10, 20, 32)),
    (
        "dynamic, to 3.0",
        DYNAMIC,
        lifting(size(400, 200, 10, 20, 32)),
    ),
    (
        "static, to 3.0",
        STATIC,
        lifting(size(400, 200, 10, 20, 32)),
    ),
    ("mixed, to 3.0", MIXED, lifting(size(400, 200, 10, 20, 32))),
    (
        "dynamic, to 3.0",
        DYNAMIC,
        lifting(size(4_000, 40, 4, 40, 32)),
    ),
    ("dynamic, deaths", DYNAMIC, dying(size(100, 50, 5, 10, 8))),
    (
        "dynamic, deaths",
        DYNAMIC,
        dying(size(400, 200, 10, 20, 32)),
    ),
    (
        "dynamic, deaths",
        DYNAMIC,
        dying(size(400, 400, 20, 20, 32)),
    ),
    ("static, deaths", STATIC, dying(size(400, 200, 10, 20, 32))),
    ("mixed, deaths", MIXED, dying(size(400, 200, 10, 20, 32))),
];

/// Many returns to one account: a tenth of the second row of `TIMED` in money, and twice its
/// returns. A run takes a tenth of a millisecond.
const MANY_TO_ONE: Size = size(40, 20, 1, 20, 64);

/// Where a fee is searched for, and the tenths of the premium wanted. Even without a fee these
/// contracts are worth less than their premium, so that fee 0 gives it; nine tenths need a fee.
const SEARCHED: [(&str, u64, Size, u64); 5] = [
    ("dynamic", DYNAMIC, at_penalty(500), 10),
    ("dynamic", DYNAMIC, at_penalty(500), 9),
    ("static", STATIC, at_penalty(500), 9),
    ("mixed", MIXED, at_penalty(500), 9),
    ("dynamic, deaths", DYNAMIC, dying(at_penalty(500)), 9),
];

/// Tables of growth: a heading, and sizes of which each doubles one thing.
const GROWTH: [(&str, &[Size]); 3] = [
    (
        "top and U doubled (G 10, N 10, 16 returns)",
        &[
            size(50, 25, 10, 10, 16),
            size(100, 50, 10, 10, 16),
            size(200, 100, 10, 10, 16),
            size(400, 200, 10, 10, 16),
            size(800, 400, 10, 10, 16),
        ],
    ),
    (
        "returns doubled (top 200, U 100, G 10, N 10)",
        &[
            size(200, 100, 10, 10, 8),
            size(200, 100, 10, 10, 16),
            size(200, 100, 10, 10, 32),
            size(200, 100, 10, 10, 64),
        ],
    ),
    (
        "G doubled (top 400, U 200, N 10, 16 returns)",
        &[
            size(400, 200, 5, 10, 16),
            size(400, 200, 10, 10, 16),
            size(400, 200, 20, 10, 16),
            size(400, 200, 40, 10, 16),
        ],
    ),
];

/// The runs of one program on one input.
struct Timing<'a> {
    program: Program,
    input: &'a Input,
    outcome: Outcome,
    /// Seconds of each run, and of all.
    runs: Vec<f64>,
    spent: f64,
}

impl Timing<'_> {
    fn first_run(program: Program, input: &Input) -> Timing<'_> {
        let (outcome, seconds) = program.run(input);
        Timing {
            program,
            input,
            outcome,
            runs: vec![seconds],
            spent: seconds,
        }
    }

    fn is_done(&self) -> bool {
        let mean = self.spent / self.runs.len() as f64;
        let enough = if mean < 0.001 { 4.0 } else { 1.0 };
        self.spent >= SECONDS || self.spent >= enough && self.runs.len() >= ENOUGH_RUNS
    }

    fn run_again(&mut self) {
        let (_, seconds) = self.program.run(self.input);
        self.runs.push(seconds);
        self.spent += seconds;
    }

    fn best(&self) -> f64 {
        self.runs.iter().copied().fold(f64::MAX, f64::min)
    }

    fn median(&self) -> f64 {
        let mut runs = self.runs.clone();
        runs.sort_by(f64::total_cmp);
        runs[runs.len() / 2]
    }
}

/// Runs programs on inputs in turn, so that a busy spell of the machine meets them all. Gives also
/// whether no outcome is a refusal and each equals the first one on the same input.
fn run_in_turn<'a>(pairs: &[(Program, &'a Input)]) -> (Vec<Timing<'a>>, bool) {
    let first_run = |pair: &(Program, &'a Input)| Timing::first_run(pair.0, pair.1);
    let mut timings: Vec<Timing> = pairs.iter().map(first_run).collect();
    while timings.iter().any(|t| !t.is_done()) {
        for timing in timings.iter_mut().filter(|t| !t.is_done()) {
            timing.run_again();
        }
    }
    let wrong = timings.iter().filter(|t| !is_right(t, &timings)).count();
    (timings, wrong == 0)
}

fn is_right(timing: &Timing, all: &[Timing]) -> bool {
    let (name, outcome) = (timing.program.name, &timing.outcome);
    let on_same = |other: &&Timing| std::ptr::eq(other.input, timing.input);
    let first = all.iter().find(on_same).unwrap_or(timing);
    let difference = outcome.difference(&first.outcome);
    if let Some(what) = &difference {
        eprintln!("differ: {name} from {}: {what}", first.program.name);
    }
    let refused = outcome.told.number != 0;
    if refused {
        eprintln!("refused: {name}: {:?}", outcome.told);
    }
    difference.is_none() && !refused
}

/// Times the programs on one input. Gives the seconds of the best runs, and whether they are
/// right, as `run_in_turn` does.
fn timed(programs: &[Program], size: &Size, behaviour: u64) -> (Vec<f64>, bool) {
    let input = size.input(behaviour);
    let pairs: Vec<(Program, &Input)> = programs.iter().map(|p| (*p, &input)).collect();
    let (timings, right) = run_in_turn(&pairs);
    (timings.iter().map(Timing::best).collect(), right)
}

/// One line of `time_programs`; the seconds are those of engine, tuned and, if it ran, plain.
fn print_timed(name: &str, s: &Size, seconds: &[f64]) {
    let (engine, tuned, plain) = (seconds[0], seconds[1], seconds.get(2));
    let of_plain = |shown: Option<String>| shown.unwrap_or("-".to_string());
    println!(
        "{name:<15}{:>6}{:>5}{:>4}{:>4}{:>9}{:>11}{engine:>11.5}{tuned:>11.5}{:>14}{:>14.3}",
        s.top,
        s.premium,
        s.level,
        s.dates,
        s.returns,
        of_plain(plain.map(|plain| format!("{plain:.5}"))),
        of_plain(plain.map(|plain| format!("{:.1}", plain / engine))),
        tuned / engine
    );
}

/// Engine, plain and tuned at the sizes of `TIMED`.
fn time_programs() -> bool {
    println!("seconds, best of several runs; '-' where plain would take minutes");
    println!("returns up to 1.6, where so named up to 3.0: more of them lift a balance above top");
    println!("zero death rates, where so named 100 to 500");
    println!(
        "behaviour         top    U   G   N  returns      plain     engine      tuned  plain/engine  tuned/engine"
    );
    let mut right = true;
    for (name, behaviour, size) in &TIMED {
        let with_plain = size.plain_steps(*behaviour) <= MOST_PLAIN_STEPS;
        let programs: &[Program] = if with_plain {
            &[ENGINE, TUNED, PLAIN]
        } else {
            &[ENGINE, TUNED]
        };
        let (seconds, equal) = timed(programs, size, *behaviour);
        print_timed(name, size, &seconds);
        right &= equal;
    }
    right
}

/// Engine, plain and tuned where many returns lead to one account.
fn time_many_to_one() -> bool {
    println!("\nmany returns to one account (top 40, U 20, G 1, N 20, 64 returns)");
    println!("microseconds, best of several runs");
    println!("behaviour      plain     engine      tuned  plain/engine  tuned/engine");
    let programs = [ENGINE, TUNED, PLAIN];
    let mut right = true;
    for (name, behaviour) in [("dynamic", DYNAMIC), ("static", STATIC), ("mixed", MIXED)] {
        let (seconds, equal) = timed(&programs, &MANY_TO_ONE, behaviour);
        right &= equal;
        let [engine, tuned, plain] = seconds[..] else {
            return false;
        };
        println!(
            "{name:<9}{:>11.1}{:>11.1}{:>11.1}{:>14.1}{:>14.3}",
            1e6 * plain,
            1e6 * engine,
            1e6 * tuned,
            plain / engine,
            tuned / engine
        );
    }
    right
}

/// Engine and tuned at sizes that double, with the factor from each line to the next.
fn time_growth(heading: &str, sizes: &[Size]) -> bool {
    println!("\ndynamic, {heading}");
    println!("  top    U   G  returns     engine  factor      tuned  factor");
    let mut right = true;
    let mut last: Option<Vec<f64>> = None;
    for s in sizes {
        let (seconds, equal) = timed(&[ENGINE, TUNED], s, DYNAMIC);
        right &= equal;
        let factor = |program: usize| {
            let last = last.as_ref().map(|last| seconds[program] / last[program]);
            last.map_or("-".to_string(), |factor| format!("{factor:.2}"))
        };
        println!(
            "{:>5}{:>5}{:>4}{:>9}{:>11.5}{:>8}{:>11.5}{:>8}",
            s.top,
            s.premium,
            s.level,
            s.returns,
            seconds[0],
            factor(0),
            seconds[1],
            factor(1)
        );
        last = Some(seconds);
    }
    right
}

/// Engine and tuned at sizes that differ in one rate alone.
fn time_rates(heading: &str, name: &str, sizes: &[Size], rate: fn(&Size) -> u16) -> bool {
    println!("\ndynamic, {heading} (top 400, U 200, G 10, N 20, 32 returns)");
    println!("{name:>7}     engine      tuned  tuned/engine");
    let mut right = true;
    for s in sizes {
        let (seconds, equal) = timed(&[ENGINE, TUNED], s, DYNAMIC);
        right &= equal;
        let (engine, tuned) = (seconds[0], seconds[1]);
        let ratio = tuned / engine;
        println!("{:>7}{engine:>11.5}{tuned:>11.5}{ratio:>14.3}", rate(s));
    }
    right
}

/// Three columns: seconds without something, with it, and their ratio.
fn with_and_without(without: f64, with: f64) -> String {
    format!("{without:>11.5}{with:>11.5}{:>14.3}", with / without)
}

/// Engine and tuned with a map of surrender and without.
fn time_maps() -> bool {
    println!("\nwith a map of surrender (top 400, U 200, G 10, N 20, 32 returns)");
    println!("             engine                             tuned                           with a map");
    println!("behaviour   without       with  with/without    without       with  with/without  tuned/engine");
    let programs = [ENGINE_MAP, TUNED_MAP, ENGINE, TUNED];
    let mut right = true;
    for (name, behaviour) in [("dynamic", DYNAMIC), ("static", STATIC), ("mixed", MIXED)] {
        let (seconds, equal) = timed(&programs, &at_penalty(500), behaviour);
        right &= equal;
        let [engine_map, tuned_map, engine, tuned] = seconds[..] else {
            return false;
        };
        println!(
            "{name:<8}{}{}{:>14.3}",
            with_and_without(engine, engine_map),
            with_and_without(tuned, tuned_map),
            tuned_map / engine_map
        );
    }
    right
}

/// Engine and tuned with death rates and with zero rates. Medians, not best runs: what counts is
/// the ratio of a program to itself.
fn time_deaths() -> bool {
    println!("\nwith death rates of 100 to 500 (top 400, U 200, G 10, N 20, 32 returns)");
    println!("seconds, median of several runs");
    println!("             engine                             tuned                           with rates");
    println!("behaviour      zero      rates    rates/zero       zero      rates    rates/zero  tuned/engine");
    let size = at_penalty(500);
    let mut right = true;
    for (name, behaviour) in [("dynamic", DYNAMIC), ("static", STATIC), ("mixed", MIXED)] {
        let (zero, rates) = (size.input(behaviour), dying(size).input(behaviour));
        let pairs = [
            (ENGINE, &zero),
            (ENGINE, &rates),
            (TUNED, &zero),
            (TUNED, &rates),
        ];
        let (timings, equal) = run_in_turn(&pairs);
        right &= equal;
        let medians: Vec<f64> = timings.iter().map(Timing::median).collect();
        let [engine_zero, engine, tuned_zero, tuned] = medians[..] else {
            return false;
        };
        println!(
            "{name:<8}{}{}{:>14.3}",
            with_and_without(engine_zero, engine),
            with_and_without(tuned_zero, tuned),
            tuned / engine
        );
    }
    right
}

/// Engine and tuned searching for a fee, beside the engine's valuations at the fee found. Medians,
/// as with death rates.
fn time_fees() -> bool {
    println!("\nsearch for a fee (top 400, U 200, G 10, N 20, 32 returns)");
    println!("seconds, median of several runs; valuations are the engine's at the fee found, without a table and with one");
    println!("every fee: what trying the fees in order from 0 to the one found would take. It was not run: it is their number");
    println!("times the mean of the engine's valuations without a table at 0, at half the fee found and at the fee found");
    println!("                          valuation                           search");
    println!("behaviour         wanted    without       with  without/with     engine  engine/without      tuned  tuned/engine   fee  every fee");
    let mut right = true;
    for (name, behaviour, size, tenths) in &SEARCHED {
        let mut input = size.input(*behaviour);
        input.wanted = input.wanted / 10 * tenths;
        let fee = ENGINE_FEE.run(&input).0.told.fee.unwrap_or(0);
        let tried = [0, fee / 2, fee].map(|fee| input.at_fee(fee as u16));
        let pairs = [
            (ENGINE_FEE, &input),
            (TUNED_FEE, &input),
            (ENGINE, &tried[2]),
            (ENGINE_NO_TABLE, &tried[0]),
            (ENGINE_NO_TABLE, &tried[1]),
            (ENGINE_NO_TABLE, &tried[2]),
        ];
        let (timings, equal) = run_in_turn(&pairs);
        right &= equal && is_value_found(&timings[0], &timings[2]);
        let medians: Vec<f64> = timings.iter().map(Timing::median).collect();
        let [engine, tuned, with, at_zero, at_half, without] = medians[..] else {
            return false;
        };
        let mean = (at_zero + at_half + without) / 3.0;
        println!(
            "{name:<15}{:>9}{without:>11.5}{with:>11.5}{:>14.3}{engine:>11.5}{:>16.2}{tuned:>11.5}{:>14.3}{fee:>6}{:>11.3}",
            input.wanted,
            without / with,
            engine / without,
            tuned / engine,
            mean * (fee + 1) as f64
        );
    }
    right
}

/// Whether a search tells the value of the fee it found.
fn is_value_found(search: &Timing, at_found: &Timing) -> bool {
    let (told, value) = (&search.outcome.told, at_found.outcome.told.value);
    if told.value != value {
        eprintln!("differ: {}: {told:?} and {value}", search.program.name);
    }
    told.value == value
}

fn time_all() -> bool {
    let cores = thread::available_parallelism().map_or(0, |n| n.get());
    println!("cores   {cores}; each program uses one");
    println!("engine  {}", env!("BENCH_ENGINE"));
    println!("Rust    {}\n", env!("BENCH_RUST"));
    let mut right = time_programs();
    right &= time_many_to_one();
    for (heading, sizes) in GROWTH {
        right &= time_growth(heading, sizes);
    }
    right &= time_rates("penalty rates", "penalty", &PENALTIES, |s| s.penalty);
    right &= time_rates("steps from penalty 2,000", "step", &STEPS, |s| s.step);
    right &= time_maps();
    right &= time_deaths();
    right &= time_fees();
    if right {
        println!(
            "\nnumbers, values, margins, tables, working slices, maps, counts and fees are equal among all that ran"
        );
    }
    right
}

fn main() -> ExitCode {
    let words: Vec<String> = std::env::args().skip(1).collect();
    let words: Vec<&str> = words.iter().map(String::as_str).collect();
    let right = match words[..] {
        [] => time_all(),
        ["check"] => check::run(),
        ["many"] => time_many_to_one(),
        _ => {
            eprintln!("usage: bench [check | many]");
            return ExitCode::from(2);
        }
    };
    if right {
        ExitCode::SUCCESS
    } else {
        ExitCode::FAILURE
    }
}
