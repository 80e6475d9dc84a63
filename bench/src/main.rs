//! The proved library and the plain engine side by side: `compare` makes random calls on both and stops at the first difference, `time`
//! measures both in one run, `count` runs one row for a profiler.

mod compare;
mod engines;
mod plain;
mod time;

use engines::{Plain, Proved};
use std::process::ExitCode;

const USAGE: &str = "usage: bench compare [CALLS] [SEED] | time | rows | count ROW proved|plain TIMES";

fn main() -> ExitCode {
    let arguments: Vec<String> = std::env::args().skip(1).collect();
    let arguments: Vec<&str> = arguments.iter().map(String::as_str).collect();
    let number = |at: usize, otherwise: u64| match arguments.get(at) {
        None => Ok(otherwise),
        Some(text) => text.parse().map_err(|_| USAGE.to_string()),
    };
    let done = match arguments[..] {
        ["compare"] | ["compare", _] | ["compare", _, _] => {
            number(1, 100_000).and_then(|calls| number(2, 1).and_then(|seed| compare::run(calls, seed)))
        }
        ["time"] => time::run(),
        ["rows"] => time::names(),
        ["count", row, "proved", _] => number(3, 0).and_then(|times| time::count::<Proved>(row, times)),
        ["count", row, "plain", _] => number(3, 0).and_then(|times| time::count::<Plain>(row, times)),
        _ => Err(USAGE.to_string()),
    };
    match done {
        Ok(()) => ExitCode::SUCCESS,
        Err(message) => {
            eprintln!("{message}");
            ExitCode::FAILURE
        }
    }
}
