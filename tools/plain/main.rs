//! The book and the ledger in plain Rust that changes the book in place: a baseline for the speed of the verified programs (README.md).

mod bench;
mod book;
mod calendar;
mod ledger;
mod output;
mod special;
mod words;

use std::env;
use std::process::ExitCode;

/// How the program is used.
const USE: &str = "use: plain ledger
     plain opening [REPEATS]
     plain mixed START ROUNDS CALLS DAYS [REPEATS]
     plain questions N [REPEATS]";

/// The numbers of the arguments behind the first, if all are numbers.
fn numbers() -> Option<Vec<u64>> {
    env::args().skip(2).map(|word| word.parse().ok()).collect()
}

/// Answers standard input; what stops it is said on standard error.
fn ledger() -> ExitCode {
    match ledger::run() {
        Ok(()) => ExitCode::SUCCESS,
        Err(error) => {
            eprintln!("plain ledger: {error}");
            ExitCode::FAILURE
        }
    }
}

/// Says how the program is used.
fn usage() -> ExitCode {
    eprintln!("{USE}");
    ExitCode::from(2)
}

/// Makes a plan of mixed calls.
fn mixed(start: u64, rounds: u64, calls: u64, days: u64, repeats: u64) -> ExitCode {
    let plan = bench::Plan {
        start: start.min(calendar::LAST_DAY as u64) as u32,
        rounds,
        calls,
        days,
    };
    bench::mixed(&plan, repeats);
    ExitCode::SUCCESS
}

fn main() -> ExitCode {
    let name = env::args().nth(1).unwrap_or_default();
    let numbers = match numbers() {
        Some(numbers) => numbers,
        None => return usage(),
    };
    match (name.as_str(), numbers.as_slice()) {
        ("ledger", []) => return ledger(),
        ("opening", []) => bench::opening(1),
        ("opening", [repeats]) => bench::opening(*repeats),
        ("mixed", [start, rounds, calls, days]) => return mixed(*start, *rounds, *calls, *days, 1),
        ("mixed", [start, rounds, calls, days, repeats]) => {
            return mixed(*start, *rounds, *calls, *days, *repeats)
        }
        ("questions", [count]) => bench::questions(*count, 1),
        ("questions", [count, repeats]) => bench::questions(*count, *repeats),
        _ => return usage(),
    }
    ExitCode::SUCCESS
}
