//! The constructors that `x87.rs` calls, each writing its row.

use crate::rows;

/// A variable: a name that is not yet a node.
#[derive(Debug, Clone, PartialEq, Eq)]
pub struct Var {
    pub name: String,
    pub bits: u16,
}

impl Var {
    #[must_use]
    pub fn new(name: impl Into<String>, bits: u16) -> Self {
        Self {
            name: name.into(),
            bits,
        }
    }

    /// The row of this variable as a node.
    fn row(&self) -> rows::Row {
        let bits = u64::from(self.bits);
        match self.name.as_str() {
            "fsw" => [4, 0, 0, 0],
            "CF" => [5, 0, 0, 0],
            "PF" => [5, 1, 0, 0],
            "ZF" => [5, 2, 0, 0],
            name => match (numbered(name, "x87_in_"), temporary(name)) {
                (Some(n), _) => [1, n, bits, 0],
                (_, Some(n)) => [2, n, bits, 0],
                _ => [3, numbered(name, "stk_").expect("a known name"), bits, 0],
            },
        }
    }
}

/// The number behind a prefix.
fn numbered(name: &str, prefix: &str) -> Option<u64> {
    name.strip_prefix(prefix)?.parse().ok()
}

/// The number of a temporary `t_ADDRESS_NUMBER`.
fn temporary(name: &str) -> Option<u64> {
    let (_address, number) = name.strip_prefix("t_")?.split_once('_')?;
    number.parse().ok()
}

/// The rounding modes of r2SMT.
#[derive(Debug, Clone, Copy, PartialEq, Eq)]
pub enum RoundingMode {
    NearestTiesEven,
    NearestTiesAway,
    TowardPositive,
    TowardNegative,
    TowardZero,
}

impl RoundingMode {
    fn number(self) -> u64 {
        match self {
            Self::NearestTiesEven => 0,
            Self::TowardZero => 1,
            other => panic!("the manual has no number for {other:?}"),
        }
    }
}

/// A node, by its number. A clone is the same node.
#[derive(Debug, Clone, PartialEq, Eq)]
pub struct Expr(u32);

impl Expr {
    /// The node of that number, written earlier.
    #[must_use]
    pub fn node(number: u32) -> Self {
        Self(number)
    }

    #[must_use]
    pub fn number(&self) -> u64 {
        self.0.into()
    }

    #[must_use]
    pub fn var(name: impl Into<String>, bits: u16) -> Self {
        Self(rows::write(Var::new(name, bits).row()))
    }

    #[must_use]
    pub fn flag(name: impl Into<String>) -> Self {
        Self::var(name, 1)
    }

    #[must_use]
    #[allow(clippy::cast_possible_truncation)]
    pub fn konst(value: u128, bits: u16) -> Self {
        let (low, high) = (value as u64, (value >> 64) as u64);
        Self(rows::write([6, low, high, bits.into()]))
    }

    #[must_use]
    #[allow(clippy::needless_pass_by_value, clippy::boxed_local)]
    pub fn ite(cond: Box<Self>, then_expr: Box<Self>, else_expr: Box<Self>) -> Self {
        let (c, t, e) = (cond.number(), then_expr.number(), else_expr.number());
        Self(rows::write([13, c, t, e]))
    }

    #[must_use]
    pub fn extract(src: Self, hi: u16, lo: u16) -> Self {
        src.unary(14, hi.into(), lo.into())
    }

    #[must_use]
    pub fn bool_not(operand: Self) -> Self {
        operand.unary(12, 0, 0)
    }

    #[must_use]
    pub fn fisnan(a: Self) -> Self {
        a.unary(22, 0, 0)
    }

    #[must_use]
    pub fn fsqrt(a: Self, rm: RoundingMode) -> Self {
        a.unary(23, rm.number(), 0)
    }

    #[must_use]
    pub fn fround_to_integral(a: Self, rm: RoundingMode) -> Self {
        a.unary(24, rm.number(), 0)
    }

    #[must_use]
    pub fn bv_to_fp(src: Self, ebits: u16, sbits: u16) -> Self {
        src.unary(25, 0, format(ebits, sbits))
    }

    #[must_use]
    pub fn fp_to_ieee_bv(src: Self) -> Self {
        src.unary(26, 0, 0)
    }

    #[must_use]
    pub fn fp_to_sbv(src: Self, rm: RoundingMode, bits: u16) -> Self {
        src.unary(27, rm.number(), bits.into())
    }

    #[must_use]
    pub fn sbv_to_fp(src: Self, rm: RoundingMode, ebits: u16, sbits: u16) -> Self {
        src.unary(28, rm.number(), format(ebits, sbits))
    }

    #[must_use]
    pub fn fp_to_fp(src: Self, rm: RoundingMode, ebits: u16, sbits: u16) -> Self {
        src.unary(29, rm.number(), format(ebits, sbits))
    }

    /// A node of one operand and two further fields.
    #[allow(clippy::needless_pass_by_value)]
    fn unary(self, kind: u64, b: u64, c: u64) -> Self {
        Self(rows::write([kind, self.number(), b, c]))
    }

    /// A node of two operands and one further field.
    #[allow(clippy::needless_pass_by_value)]
    fn binary(kind: u64, lhs: Self, rhs: Self, c: u64) -> Self {
        Self(rows::write([kind, lhs.number(), rhs.number(), c]))
    }
}

/// The constructors of two operands.
#[allow(clippy::should_implement_trait)]
impl Expr {
    #[must_use]
    pub fn bv_and(lhs: Self, rhs: Self) -> Self {
        Self::binary(7, lhs, rhs, 0)
    }

    #[must_use]
    pub fn bv_xor(lhs: Self, rhs: Self) -> Self {
        Self::binary(8, lhs, rhs, 0)
    }

    #[must_use]
    pub fn eq(lhs: Self, rhs: Self) -> Self {
        Self::binary(9, lhs, rhs, 0)
    }

    #[must_use]
    pub fn bool_and(lhs: Self, rhs: Self) -> Self {
        Self::binary(10, lhs, rhs, 0)
    }

    #[must_use]
    pub fn bool_or(lhs: Self, rhs: Self) -> Self {
        Self::binary(11, lhs, rhs, 0)
    }

    #[must_use]
    pub fn concat(high: Self, low: Self) -> Self {
        Self::binary(15, high, low, 0)
    }

    #[must_use]
    pub fn fadd(a: Self, b: Self, rm: RoundingMode) -> Self {
        Self::binary(16, a, b, rm.number())
    }

    #[must_use]
    pub fn fsub(a: Self, b: Self, rm: RoundingMode) -> Self {
        Self::binary(17, a, b, rm.number())
    }

    #[must_use]
    pub fn fmul(a: Self, b: Self, rm: RoundingMode) -> Self {
        Self::binary(18, a, b, rm.number())
    }

    #[must_use]
    pub fn fdiv(a: Self, b: Self, rm: RoundingMode) -> Self {
        Self::binary(19, a, b, rm.number())
    }

    #[must_use]
    pub fn feq(a: Self, b: Self) -> Self {
        Self::binary(20, a, b, 0)
    }

    #[must_use]
    pub fn flt(a: Self, b: Self) -> Self {
        Self::binary(21, a, b, 0)
    }
}

/// A format as one number: exponent bits times 256 plus significand bits.
fn format(ebits: u16, sbits: u16) -> u64 {
    u64::from(ebits) * 256 + u64::from(sbits)
}
