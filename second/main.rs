//! The second program: a command line over the rules in gmwb.rs.
//!
//! ```text
//! second run                         answers a script of operations; see script.rs
//! second run full                    the same, with the contents of the lent slices
//! second script                      prints the script of the test program; see cases.rs
//! second cover                       whether a script has every case; see cover.rs
//! second program RECORDFILE LISTFILE prints what `gmwbval` prints for these two files
//! second self-check                  checks the rules; see self_check.rs
//! second pack FOLDER                 text to terms.bin, returns.bin and rates.bin; see text.rs
//! second show RECORDFILE LISTFILE RATESFILE
//!                                    a record, a list and death rates as that text
//! ```
//!
//! Exit status: 0; 1 after an error, a failed check or a script line not understood;
//! 2 when the command itself is not understood. A refusal is an answer, with status 0.

mod cases;
mod cover;
mod gmwb;
mod script;
mod self_check;
mod terms;
mod text;

use std::io::{self, Read, Write};
use std::path::Path;
use std::process::ExitCode;

const USAGE: &str = "usage: second run [full] | script | cover | program RECORDFILE LISTFILE \
                     | self-check | pack FOLDER | show RECORDFILE LISTFILE RATESFILE";

/// "A missing file is empty." Any other failure to read is an error.
fn bytes_of(path: &str) -> Result<Vec<u8>, String> {
    match std::fs::read(path) {
        Err(e) if e.kind() == io::ErrorKind::NotFound => Ok(Vec::new()),
        result => result.map_err(|e| format!("{path}: {e}")),
    }
}

/// Not by print!, which panics when the reader has gone.
fn print(text: &str) -> Result<bool, String> {
    let written = io::stdout().write_all(text.as_bytes());
    written.map(|()| true).map_err(|e| e.to_string())
}

fn program(record: &str, list: &str) -> Result<bool, String> {
    print(&gmwb::program(&bytes_of(record)?, &bytes_of(list)?))
}

fn show(record: &str, list: &str, rates: &str) -> Result<bool, String> {
    let (record, list) = (bytes_of(record)?, bytes_of(list)?);
    print(&text::show(&record, &list, &bytes_of(rates)?)?)
}

fn pack(folder: &str) -> Result<bool, String> {
    let mut input = String::new();
    let read = io::stdin().read_to_string(&mut input);
    read.map_err(|e| e.to_string())?;
    let packed = text::pack(&input)?;
    for (name, bytes) in ["terms.bin", "returns.bin", "rates.bin"].iter().zip(packed) {
        let path = Path::new(folder).join(name);
        std::fs::write(&path, bytes).map_err(|e| format!("{}: {e}", path.display()))?;
    }
    Ok(true)
}

fn run(full: bool) -> Result<bool, String> {
    script::run(io::stdin().lock(), io::stdout().lock(), full).map_err(|e| e.to_string())
}

fn cover() -> Result<bool, String> {
    let mut script = String::new();
    let read = io::stdin().read_to_string(&mut script);
    read.map_err(|e| e.to_string())?;
    let (found, lacking) = cover::cover(&script);
    for what in &lacking {
        eprintln!("lacking: {what}");
    }
    print(&format!(
        "second: {found}, {} cases lacking\n",
        lacking.len()
    ))?;
    Ok(lacking.is_empty())
}

fn self_check() -> Result<bool, String> {
    let (checks, failed) = self_check::run();
    print(&format!("second: {checks} checks, {failed} failed\n"))?;
    Ok(failed == 0)
}

fn main() -> ExitCode {
    let words: Vec<_> = std::env::args_os().skip(1).collect();
    // A word that is not UTF-8 becomes None and fits no command.
    let words: Option<Vec<&str>> = words.iter().map(|w| w.to_str()).collect();
    let words = words.unwrap_or_default();
    let result = match words[..] {
        ["run"] => run(false),
        ["run", "full"] => run(true),
        ["script"] => print(&cases::script()),
        ["cover"] => cover(),
        ["program", record, list] => program(record, list),
        ["self-check"] => self_check(),
        ["pack", folder] => pack(folder),
        ["show", record, list, rates] => show(record, list, rates),
        _ => {
            eprintln!("{USAGE}");
            return ExitCode::from(2);
        }
    };
    match result {
        Ok(true) => ExitCode::SUCCESS,
        Ok(false) => ExitCode::FAILURE,
        Err(reason) => {
            eprintln!("second: {reason}");
            ExitCode::FAILURE
        }
    }
}
