//! Loads and stores whose address is a number.

use crate::expr::{Expr, Var};
use crate::stmt::IrStmt;

/// The load that assigns the node `loaded`.
#[must_use]
pub fn load(_dst: Var, loaded: &Expr, address: u32, bits: u16) -> IrStmt {
    IrStmt::LoadMem {
        loaded: loaded.clone(),
        address,
        bits,
    }
}

/// The store of `value`.
#[must_use]
pub fn store(address: u32, value: Expr, bits: u16) -> IrStmt {
    IrStmt::StoreMem {
        address,
        value,
        bits,
    }
}
