//! `differential CALL [SIZE] [SEED]`: compare the static library with the
//! Rust; for `records`, `checks`, `texts`, `text-reads` and `every-text` with
//! their rules said plainly, for `every-text` also with the list of every text
//! of small universes, for `record-lifts` with the two calls that it stands for,
//! for `z3` and `cvc5` with that solver, for `images` with the processor;
//! for `text-z3` and `text-cvc5` the texts of formulas with their values, by
//! that solver. `x87lift` is the program, compared with the plain reader and
//! the Rust. Ends with status 1 where anything differs.

use std::env;
use std::process::ExitCode;
use std::time::Instant;

use differential::report::Report;
use differential::solver::Solver;
use differential::subject::Library;
use differential::{
    NO_ORACLE, checks, classify, every_text, images, lift, listings, oracle, processor,
    record_lifts, records, text_reads, text_values, texts, values,
};
use program::Program;

const USAGE: &str = "differential classify|records|lift|record-lifts|checks|z3|cvc5|images|texts|\
                     text-reads|every-text|text-z3|text-cvc5|x87lift [SIZE] [SEED]";

/// Sizes of the full runs.
const CLASSIFY: u64 = 3_500_000;
const RECORDS: u64 = 1_500_000;
const SEQUENCES: u64 = 200_000;
const RECORD_LIFTS: u64 = 1_500_000;
const CHECKS: u64 = 2_000_000;
const LISTS: u64 = 40_000;
const IMAGES: u64 = 5_000_000;
const TEXTS: u64 = 200_000;
const TEXT_READS: u64 = 1_000_000;
const TEXT_VALUES: u64 = 4_000;
const LISTINGS: u64 = 25_000;

fn main() -> ExitCode {
    let words: Vec<String> = env::args().skip(1).collect();
    let (Some(call), Some(size), Some(seed)) =
        (words.first(), number(&words, 1), number(&words, 2))
    else {
        return usage();
    };
    if !sleetgate_sys::at_hand() {
        return failure(sleetgate_sys::MISSING);
    }
    let seed = seed.unwrap_or(1);
    let start = Instant::now();
    let report = match compared(call, size, seed) {
        Ok(Some(report)) => report,
        Ok(None) => return ExitCode::SUCCESS,
        Err(Some(why)) => return failure(why),
        Err(None) => return usage(),
    };
    println!("{call}, seed {seed}: {report}");
    println!("{:.1} s", start.elapsed().as_secs_f64());
    if report.is_equal() {
        ExitCode::SUCCESS
    } else {
        ExitCode::FAILURE
    }
}

/// The report of a call, or none where what it needs is not at hand and a
/// line says so. An error is what is missing, or nothing where there is no
/// such call.
fn compared(
    call: &str,
    size: Option<u64>,
    seed: u64,
) -> Result<Option<Report>, Option<&'static str>> {
    let or = |full: u64| size.unwrap_or(full);
    Ok(match call {
        "classify" => with_oracle(|| classify::run(&Library, or(CLASSIFY), seed)),
        "records" => Some(records::run(&Library, or(RECORDS), seed)),
        "lift" => with_oracle(|| lift::run(&Library, or(SEQUENCES), seed)),
        "record-lifts" => Some(record_lifts::run(&Library, or(RECORD_LIFTS), seed)),
        "checks" => Some(checks::run(&Library, or(CHECKS), seed)),
        "images" => {
            processor::tell_emulated();
            Some(images::run(&Library, or(IMAGES), seed))
        }
        "x87lift" => {
            let program = Program::at_hand().ok_or(Some(program::MISSING))?;
            let run = || listings::run(&program, or(LISTINGS), seed);
            with_oracle(|| run().unwrap_or_else(|e| panic!("x87lift: {e}")))
        }
        "texts" => Some(texts::run(&Library, or(TEXTS), seed)),
        "text-reads" => Some(text_reads::run(&Library, or(TEXT_READS), seed)),
        "every-text" => Some(every_text::run(&Library, or(every_text::CASES), seed)),
        "text-z3" => with_texts(Solver::Z3, or(TEXT_VALUES), seed),
        "text-cvc5" => with_texts(Solver::Cvc5, or(TEXT_VALUES), seed),
        "z3" => with_solver(Solver::Z3, or(LISTS), seed),
        "cvc5" => with_solver(Solver::Cvc5, or(LISTS), seed),
        _ => return Err(None),
    })
}

fn failure(why: &str) -> ExitCode {
    eprintln!("{why}");
    ExitCode::FAILURE
}

/// A run that needs the oracle: without it, only a line that says so.
fn with_oracle(run: impl FnOnce() -> Report) -> Option<Report> {
    if oracle::at_hand() {
        return Some(run());
    }
    println!("{NO_ORACLE}");
    None
}

/// The values by a solver: where it cannot be run, only a line that says
/// so.
fn with_solver(solver: Solver, size: u64, seed: u64) -> Option<Report> {
    if !solver.at_hand() {
        println!("{}", solver.missing());
        return None;
    }
    let report = values::run(&Library, solver, size, seed);
    Some(report.unwrap_or_else(|e| panic!("{}: {e}", solver.name())))
}

/// The values of texts by a solver: where it cannot be run, only a line that
/// says so.
fn with_texts(solver: Solver, size: u64, seed: u64) -> Option<Report> {
    if !solver.at_hand() {
        println!("{}", solver.missing());
        return None;
    }
    let report = text_values::run(&Library, &Library, solver, size, seed);
    Some(report.unwrap_or_else(|e| panic!("{}: {e}", solver.name())))
}

/// The number that stands as the word `at`: none where there is no such
/// word, and nothing at all where it is no number.
#[allow(clippy::option_option)]
fn number(words: &[String], at: usize) -> Option<Option<u64>> {
    match words.get(at) {
        None => Some(None),
        Some(word) => word.parse().ok().map(Some),
    }
}

fn usage() -> ExitCode {
    eprintln!("{USAGE}");
    ExitCode::from(2)
}
