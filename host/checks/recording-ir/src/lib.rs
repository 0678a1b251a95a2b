//! An IR whose expressions are node numbers.
//!
//! `x87.rs` is built a second time over this crate in the place of
//! `r2smt-ir`. Each constructor writes one row of four words when it
//! returns; a clone writes none. The list of rows is then what the
//! manual, section 4, calls the nodes, in the Rust's own order of calls.

pub mod expr;
pub mod memory;
mod rows;
pub mod stmt;

pub use r2smt_common::program;
pub use rows::{Row, recorded};

/// Stands for an `Ite` literal: the same fields in the same order, as a
/// call.
#[macro_export]
macro_rules! ite {
    (cond: $cond:expr, then_expr: $then:expr, else_expr: $else:expr $(,)?) => {
        $crate::expr::Expr::ite($cond, $then, $else)
    };
}
