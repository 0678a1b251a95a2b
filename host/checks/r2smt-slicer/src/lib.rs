//! r2SMT's `x87.rs`, with stand-ins for the modules around it.
//!
//! This source is built twice: as `r2smt-slicer` over r2SMT's own `Expr`,
//! with the text of `x87.rs` unchanged, and as `recorder` over an `Expr`
//! that records each constructor call.

#[cfg(not(no_oracle))]
mod effect;
#[cfg(not(no_oracle))]
mod lift;

#[cfg(not(no_oracle))]
pub use lift::{Lifter, classify, effect};
