//! The proved crates, linked as a static library, compared with the Rust
//! they are a port of, and with the rules of the manual said plainly.

use std::io::Write as _;

pub mod checks;
pub mod classify;
pub mod damage;
pub mod every_text;
pub mod expect;
pub mod formulas;
pub mod images;
pub mod inputs;
pub mod instructions;
#[cfg(not(no_oracle))]
pub mod lift;
#[cfg(not(no_oracle))]
pub mod listings;
pub mod lists;
pub mod names;
pub mod operands;
pub mod patterns;
pub mod processor;
pub mod programs;
pub mod record_lifts;
pub mod records;
pub mod report;
pub mod rng;
pub mod sample;
pub mod sample_formulas;
#[cfg(not(no_oracle))]
pub mod sample_lifts;
pub mod sequences;
pub mod sexpr;
pub mod smtlib;
pub mod solver;
#[cfg(not(no_oracle))]
pub mod steps;
pub mod stored;
pub mod stored_formulas;
pub mod stored_texts;
pub mod subject;
pub mod text_reads;
pub mod text_values;
pub mod texts;
#[cfg(not(no_oracle))]
pub mod trees;
pub mod values;
pub mod wellformed;
#[cfg(not(no_oracle))]
pub mod work;

#[cfg(not(no_oracle))]
pub mod oracle;

#[cfg(no_oracle)]
#[path = "absent.rs"]
pub mod oracle;

#[cfg(no_oracle)]
#[path = "absent_lift.rs"]
pub mod lift;

#[cfg(no_oracle)]
#[path = "absent_listings.rs"]
pub mod listings;

/// Say that a test is left out, past the test harness's capture.
pub fn left_out(why: &str) {
    // A line that cannot be written is no reason to fail.
    let _ = writeln!(std::io::stderr(), "left out: {why}");
}

/// How many cases a test compares of so many, or demands: fewer where the
/// library is run by an emulator, which takes long.
#[must_use]
pub fn fewer(size: u64) -> u64 {
    const FEWER: u64 = 8;
    if sleetgate_sys::is_emulated() {
        size / FEWER
    } else {
        size
    }
}

/// Say where the library is run by an emulator: what is measured then says
/// nothing about it.
pub fn tell_unmeasured() {
    if sleetgate_sys::is_emulated() {
        eprintln!("the library is run by an emulator here: its times and counts say nothing");
    }
}

/// What is said where the r2SMT sources are not at hand.
pub const NO_ORACLE: &str = "r2SMT sources not at hand: the stored answers are the test";
