//! Stands in the place of the oracle where the r2SMT sources are not at
//! hand: the comparisons ask `at_hand` first.

use plain::Instruction;

/// Whether the r2SMT sources were at hand when this was built.
#[must_use]
pub fn at_hand() -> bool {
    false
}

/// # Panics
/// Always: there is no oracle.
#[must_use]
pub fn classify(_: &Instruction) -> Option<[u64; 8]> {
    panic!("{}", crate::NO_ORACLE)
}

/// # Panics
/// Always: there is no oracle.
#[must_use]
pub fn effect(_: &Instruction) -> Option<[bool; 7]> {
    panic!("{}", crate::NO_ORACLE)
}
