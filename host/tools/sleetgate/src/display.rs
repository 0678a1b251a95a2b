//! Nodes and their fields as text.

use std::fmt;

use crate::{Flag, Format, Node, Rounding, Sort};

/// A node on one line: its name, then in brackets its operands and then
/// its other fields, in the order of its row. Numbers are decimal, but a
/// constant's value is hexadecimal. `hi..lo` are the ends of an `Extract`,
/// both included. No two nodes have the same text, and it is stable: a
/// tool may compare it.
///
/// ```
/// use sleetgate::{Format, Node, Rounding};
///
/// let texts = [
///     (Node::Input { number: 0, bits: 79 }, "Input(0, 79 bits)"),
///     (Node::Constant { value: 255, bits: 8 }, "Constant(0xff, 8 bits)"),
///     (Node::Extract { source: 5, hi: 63, lo: 0 }, "Extract(5, 63..0)"),
///     (Node::Concat { high: 2, low: 1 }, "Concat(2, 1)"),
///     (Node::FAdd(3, 4, Rounding::NearestEven), "FAdd(3, 4, nearest even)"),
///     (Node::FpToSbv(3, Rounding::TowardZero, 16), "FpToSbv(3, toward zero, 16 bits)"),
///     (Node::BvToFp(0, Format::Extended), "BvToFp(0, extended)"),
///     (Node::Status, "Status"),
/// ];
/// for (node, text) in texts {
///     assert_eq!(node.to_string(), text);
/// }
/// ```
impl fmt::Display for Node {
    fn fmt(&self, f: &mut fmt::Formatter<'_>) -> fmt::Result {
        let operands = self.operands().map(|operand| operand.to_string());
        let fields: Vec<String> = operands.chain(self.others()).collect();
        if fields.is_empty() {
            return f.pad(self.name());
        }
        f.pad(&format!("{}({})", self.name(), fields.join(", ")))
    }
}

impl Node {
    /// The name of its kind.
    ///
    /// ```
    /// # use sleetgate::Node;
    /// assert_eq!(Node::FpToIeeeBv(3).name(), "FpToIeeeBv");
    /// ```
    #[must_use]
    pub fn name(self) -> &'static str {
        match self {
            Self::Input { .. } => "Input",
            Self::Temporary { .. } => "Temporary",
            Self::Slot { .. } => "Slot",
            Self::Status => "Status",
            Self::Flag(_) => "Flag",
            Self::Constant { .. } => "Constant",
            Self::And(..) => "And",
            Self::Xor(..) => "Xor",
            Self::Eq(..) => "Eq",
            Self::BoolAnd(..) => "BoolAnd",
            Self::BoolOr(..) => "BoolOr",
            Self::BoolNot(_) => "BoolNot",
            Self::Ite { .. } => "Ite",
            Self::Extract { .. } => "Extract",
            Self::Concat { .. } => "Concat",
            Self::FAdd(..) => "FAdd",
            Self::FSub(..) => "FSub",
            Self::FMul(..) => "FMul",
            Self::FDiv(..) => "FDiv",
            Self::FEq(..) => "FEq",
            Self::FLt(..) => "FLt",
            Self::FIsNaN(_) => "FIsNaN",
            Self::FSqrt(..) => "FSqrt",
            Self::FRoundToIntegral(..) => "FRoundToIntegral",
            Self::BvToFp(..) => "BvToFp",
            Self::FpToIeeeBv(_) => "FpToIeeeBv",
            Self::FpToSbv(..) => "FpToSbv",
            Self::SbvToFp(..) => "SbvToFp",
            Self::FpToFp(..) => "FpToFp",
        }
    }

    /// The texts of its fields that are no operands.
    fn others(self) -> Vec<String> {
        match self {
            Self::Input { number, bits }
            | Self::Temporary { number, bits }
            | Self::Slot { number, bits } => vec![number.to_string(), width(bits)],
            Self::Flag(flag) => vec![flag.to_string()],
            Self::Constant { value, bits } => vec![format!("{value:#x}"), width(bits)],
            Self::Extract { hi, lo, .. } => vec![format!("{hi}..{lo}")],
            Self::FAdd(.., r)
            | Self::FSub(.., r)
            | Self::FMul(.., r)
            | Self::FDiv(.., r)
            | Self::FSqrt(_, r)
            | Self::FRoundToIntegral(_, r) => vec![r.to_string()],
            Self::BvToFp(_, format) => vec![format.to_string()],
            Self::FpToSbv(_, r, bits) => vec![r.to_string(), width(bits)],
            Self::SbvToFp(_, r, format) | Self::FpToFp(_, r, format) => {
                vec![r.to_string(), format.to_string()]
            }
            _ => Vec::new(),
        }
    }
}

/// So many bits.
fn width(bits: u64) -> String {
    match bits {
        1 => "1 bit".to_owned(),
        _ => format!("{bits} bits"),
    }
}

/// The flag's name, such as `CF`.
impl fmt::Display for Flag {
    fn fmt(&self, f: &mut fmt::Formatter<'_>) -> fmt::Result {
        f.pad(match self {
            Self::CF => "CF",
            Self::PF => "PF",
            Self::ZF => "ZF",
            Self::OF => "OF",
            Self::SF => "SF",
        })
    }
}

/// `nearest even` or `toward zero`.
impl fmt::Display for Rounding {
    fn fmt(&self, f: &mut fmt::Formatter<'_>) -> fmt::Result {
        f.pad(match self {
            Self::NearestEven => "nearest even",
            Self::TowardZero => "toward zero",
        })
    }
}

/// `single`, `double` or `extended`.
impl fmt::Display for Format {
    fn fmt(&self, f: &mut fmt::Formatter<'_>) -> fmt::Result {
        f.pad(match self {
            Self::Single => "single",
            Self::Double => "double",
            Self::Extended => "extended",
        })
    }
}

/// A width such as `79 bits`, or a format such as `extended`.
impl fmt::Display for Sort {
    fn fmt(&self, f: &mut fmt::Formatter<'_>) -> fmt::Result {
        match self {
            Self::Bits(bits) => f.pad(&width((*bits).into())),
            Self::Float(format) => format.fmt(f),
        }
    }
}
