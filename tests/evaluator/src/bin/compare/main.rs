//! Compares the library's calls with the evaluator's on generated input:
//! number, count, announcement and every byte of every lent buffer.
//!
//! A difference is printed in a small case and ends the run with code 1, and
//! so does a number that a call can give and never gave.

// Without the archive there is only the self-test.
#![cfg_attr(not(feature = "archive"), allow(dead_code))]

#[cfg(test)]
mod agreement;
#[cfg(feature = "archive")]
mod archive;
mod arguments;
mod call;
mod case;
mod contents;
mod damage;
mod mutants;
mod pose;
mod programs;
mod queries;
mod reach;
mod report;
mod rng;
mod shrink;
mod stream;
mod tally;
mod world;

use arguments::{Arguments, USAGE};
use case::{Case, Outcome};
use std::process::ExitCode;
use stream::Stream;
use tally::Tally;

fn main() -> ExitCode {
    match Arguments::read(std::env::args().skip(1)) {
        Some(arguments) => ExitCode::from(!passed(&arguments) as u8),
        None => {
            eprintln!("{USAGE}");
            ExitCode::from(2)
        }
    }
}

fn passed(arguments: &Arguments) -> bool {
    println!("seed {}", arguments.seed);
    if arguments.self_test {
        mutants::all_noticed(arguments.seed)
    } else {
        with_archive(arguments)
    }
}

#[cfg(feature = "archive")]
fn with_archive(arguments: &Arguments) -> bool {
    compare(arguments, archive::outcome)
}

#[cfg(not(feature = "archive"))]
fn with_archive(_: &Arguments) -> bool {
    eprintln!("built without the archive: build with its folder in TRAMMELBUD_LIB");
    false
}

/// Holds `library` to the evaluator and says whether they agree throughout.
fn compare(arguments: &Arguments, library: impl Fn(&Case) -> Outcome) -> bool {
    let mut stream = Stream::new(arguments.seed, &arguments.only);
    let mut tally = Tally::of(&arguments.only);
    for _ in 0..arguments.calls {
        let posed = stream.next();
        let (expected, file) = posed.expectation.outcome(&posed.case.lent);
        if library(&posed.case) != expected {
            explain(posed.case, library);
            return false;
        }
        tally.note(&posed.case, &expected, file, &posed.rooms);
    }
    tally.print();
    let never = tally.never();
    for line in &never {
        println!("never met: {line}");
    }
    if never.is_empty() {
        println!(
            "{} calls compared, 0 differences (seed {})",
            arguments.calls, arguments.seed
        );
    }
    never.is_empty()
}

/// Prints a case that differs, made as small as it gets.
fn explain(case: Case, library: impl Fn(&Case) -> Outcome) {
    let small = shrink::shrink(case, |case| library(case) != case::expected(case));
    report::print(&small, &case::expected(&small), &library(&small));
}
