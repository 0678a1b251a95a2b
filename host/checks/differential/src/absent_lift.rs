//! Stands in the place of the lift comparison where the r2SMT sources are
//! not at hand.

use crate::report::Report;
use crate::subject::Subject;

/// # Panics
/// Always: there is no oracle.
pub fn run(_: &impl Subject, _: u64, _: u64) -> Report {
    panic!("{}", crate::NO_ORACLE)
}
