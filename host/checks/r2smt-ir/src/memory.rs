//! Loads and stores whose address expression is a number.

use crate::expr::{Expr, Var};
use crate::stmt::IrStmt;

/// The load that assigns `dst`. The second value is the expression that
/// names `dst`; a tree has no need of it.
#[must_use]
pub fn load(dst: Var, _loaded: &Expr, address: u32, bits: u16) -> IrStmt {
    IrStmt::LoadMem {
        dst,
        address: at(address),
        bits,
    }
}

/// The store of `value`.
#[must_use]
pub fn store(address: u32, value: Expr, bits: u16) -> IrStmt {
    IrStmt::StoreMem {
        address: at(address),
        value,
        bits,
    }
}

/// What stands for the address expression of that number.
#[must_use]
pub fn at(number: u32) -> Expr {
    Expr::var(format!("address_{number}"), 64)
}
