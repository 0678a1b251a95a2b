//! Stands in the place of the comparison of listings where the r2SMT
//! sources are not at hand.

use std::io;

use program::Program;

use crate::report::Report;

/// # Errors
/// None.
///
/// # Panics
/// Always: there is no oracle.
pub fn run(_: &Program, _: u64, _: u64) -> io::Result<Report> {
    panic!("{}", crate::NO_ORACLE)
}
