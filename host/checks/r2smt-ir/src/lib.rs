//! r2SMT's `expr.rs` and `stmt.rs`, unchanged, with the program types
//! that stand beside them.

pub use r2smt_common::program;

#[cfg(not(no_oracle))]
include!(concat!(env!("OUT_DIR"), "/modules.rs"));

#[cfg(not(no_oracle))]
pub mod memory;
