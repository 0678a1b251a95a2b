//! Stand-in for the parts of `r2smt-common` and of `r2smt_ir::program`
//! that `x87.rs` names.

use std::fmt;

pub mod program;

/// The instruction sets of r2SMT, of which this comparison uses one.
#[derive(Debug, Clone, Copy, PartialEq, Eq)]
pub enum Arch {
    X86_64,
}

/// An instruction's address.
#[derive(Debug, Clone, Copy, PartialEq, Eq)]
pub struct Address(pub u64);

impl fmt::Display for Address {
    fn fmt(&self, f: &mut fmt::Formatter<'_>) -> fmt::Result {
        write!(f, "{:#x}", self.0)
    }
}

impl Address {
    /// The address that was printed by `Display`.
    #[must_use]
    pub fn printed(text: &str) -> Option<Self> {
        let digits = text.strip_prefix("0x")?;
        u64::from_str_radix(digits, 16).ok().map(Self)
    }
}
