//! Nodes.

use crate::Iter;
use crate::rows::Rows;

/// A node of a formula: one operation, or one value that it starts from
/// (manual, section 4). An operand is the number of an earlier node.
///
/// Nodes are ordered by kind, the number that stands first below, then by
/// their fields from left to right. That is the order of their rows, but
/// constants go by their value.
///
/// ```
/// # use sleetgate::Node;
/// let mut nodes = [Node::Eq(1, 0), Node::Eq(0, 7), Node::Status];
/// nodes.sort();
/// assert_eq!(nodes, [Node::Status, Node::Eq(0, 7), Node::Eq(1, 0)]);
/// ```
#[derive(Debug, Clone, Copy, PartialEq, Eq, PartialOrd, Ord, Hash)]
pub enum Node {
    /// 1: a value that was there before: of a place (79 bits), or the
    /// free bits of a status word (16).
    Input {
        /// Its number.
        number: u64,
        /// Its bits.
        bits: u64,
    },
    /// 2: a value loaded from memory.
    Temporary {
        /// Its number.
        number: u64,
        /// Its bits.
        bits: u64,
    },
    /// 3: a value loaded from a stack slot.
    Slot {
        /// The slot's number.
        number: u64,
        /// Its bits.
        bits: u64,
    },
    /// 4: the status word.
    Status,
    /// 5: a flag, CF, PF or ZF. It names the flag, not its value at that
    /// moment.
    Flag(Flag),
    /// 6: a constant.
    Constant {
        /// Its value.
        value: u128,
        /// Its bits.
        bits: u64,
    },
    /// 7: bit by bit.
    And(u64, u64),
    /// 8: bit by bit.
    Xor(u64, u64),
    /// 9: whether two bit values are equal.
    Eq(u64, u64),
    /// 10.
    BoolAnd(u64, u64),
    /// 11.
    BoolOr(u64, u64),
    /// 12.
    BoolNot(u64),
    /// 13.
    Ite {
        /// What decides.
        condition: u64,
        /// The value where it holds.
        then: u64,
        /// The value where it does not.
        otherwise: u64,
    },
    /// 14: the bits from `lo` to `hi`.
    Extract {
        /// Of this node.
        source: u64,
        /// The highest bit.
        hi: u64,
        /// The lowest bit.
        lo: u64,
    },
    /// 15: two bit values side by side.
    Concat {
        /// The upper one.
        high: u64,
        /// The lower one.
        low: u64,
    },
    /// 16.
    FAdd(u64, u64, Rounding),
    /// 17.
    FSub(u64, u64, Rounding),
    /// 18.
    FMul(u64, u64, Rounding),
    /// 19.
    FDiv(u64, u64, Rounding),
    /// 20: whether two floats are equal.
    FEq(u64, u64),
    /// 21: whether a float is less than another.
    FLt(u64, u64),
    /// 22.
    FIsNaN(u64),
    /// 23.
    FSqrt(u64, Rounding),
    /// 24.
    FRoundToIntegral(u64, Rounding),
    /// 25: the float of a pattern.
    BvToFp(u64, Format),
    /// 26: the pattern of a float.
    FpToIeeeBv(u64),
    /// 27: a float as a signed integer of so many bits.
    FpToSbv(u64, Rounding, u64),
    /// 28: a signed integer as a float.
    SbvToFp(u64, Rounding, Format),
    /// 29: a float in another format.
    FpToFp(u64, Rounding, Format),
}

/// A flag.
#[derive(Debug, Clone, Copy, PartialEq, Eq, PartialOrd, Ord, Hash)]
#[allow(missing_docs)]
pub enum Flag {
    CF,
    PF,
    ZF,
    OF,
    SF,
}

impl Flag {
    pub(crate) fn of(number: u64) -> Option<Self> {
        const ALL: [Flag; 5] = [Flag::CF, Flag::PF, Flag::ZF, Flag::OF, Flag::SF];
        ALL.get(usize::try_from(number).ok()?).copied()
    }

    pub(crate) fn number(self) -> u64 {
        self as u64
    }
}

/// How a float operation rounds.
#[derive(Debug, Clone, Copy, PartialEq, Eq, PartialOrd, Ord, Hash)]
pub enum Rounding {
    /// To nearest, ties to even.
    NearestEven,
    /// Toward zero.
    TowardZero,
}

impl Rounding {
    pub(crate) fn of(number: u64) -> Option<Self> {
        match number {
            0 => Some(Self::NearestEven),
            1 => Some(Self::TowardZero),
            _ => None,
        }
    }

    fn number(self) -> u64 {
        self as u64
    }
}

/// A float format.
#[derive(Debug, Clone, Copy, PartialEq, Eq, PartialOrd, Ord, Hash)]
pub enum Format {
    /// 8 exponent and 24 significand bits.
    Single,
    /// 11 and 53.
    Double,
    /// 15 and 64: the stack's own.
    Extended,
}

impl Format {
    fn of(number: u64) -> Option<Self> {
        [Self::Single, Self::Double, Self::Extended]
            .into_iter()
            .find(|format| format.number() == number)
    }

    /// Exponent bits times 256 plus significand bits: 2072, 2869, 3904.
    #[must_use]
    pub fn number(self) -> u64 {
        match self {
            Self::Single => 2072,
            Self::Double => 2869,
            Self::Extended => 3904,
        }
    }

    /// Bits of a pattern: 32, 64 or 79.
    #[must_use]
    pub fn width(self) -> u32 {
        match self {
            Self::Single => 32,
            Self::Double => 64,
            Self::Extended => 79,
        }
    }
}

impl Node {
    /// The node of a row; `None` where there is no such kind, a flag,
    /// rounding or format is none of those here, or an unused field is
    /// not 0. Whether the node has a sort is for [`Node::sort`] and
    /// [`check`](crate::check) to say.
    ///
    /// ```
    /// # use sleetgate::{Node, Rounding};
    /// let sum = Node::FAdd(3, 2, Rounding::NearestEven);
    /// assert_eq!(Node::of([16, 3, 2, 0]), Some(sum));
    /// assert_eq!(sum.row(), [16, 3, 2, 0]);
    /// assert_eq!(Node::of([16, 3, 2, 2]), None);
    /// ```
    #[must_use]
    pub fn of(row: [u64; 4]) -> Option<Self> {
        let node = Self::read(row)?;
        (node.row() == row).then_some(node)
    }

    /// The node of a row, as far as its used fields go.
    fn read([kind, a, b, c]: [u64; 4]) -> Option<Self> {
        Some(match kind {
            1 => Self::Input { number: a, bits: b },
            2 => Self::Temporary { number: a, bits: b },
            3 => Self::Slot { number: a, bits: b },
            4 => Self::Status,
            5 if a <= 2 => Self::Flag(Flag::of(a)?),
            6 => Self::Constant {
                value: u128::from(b) << 64 | u128::from(a),
                bits: c,
            },
            7 => Self::And(a, b),
            8 => Self::Xor(a, b),
            9 => Self::Eq(a, b),
            10 => Self::BoolAnd(a, b),
            11 => Self::BoolOr(a, b),
            12 => Self::BoolNot(a),
            13 => Self::Ite {
                condition: a,
                then: b,
                otherwise: c,
            },
            14 => Self::Extract {
                source: a,
                hi: b,
                lo: c,
            },
            15 => Self::Concat { high: a, low: b },
            _ => return Self::read_float([kind, a, b, c]),
        })
    }

    /// The same for the kinds that have a float operand or are floats.
    fn read_float([kind, a, b, c]: [u64; 4]) -> Option<Self> {
        Some(match kind {
            16 => Self::FAdd(a, b, Rounding::of(c)?),
            17 => Self::FSub(a, b, Rounding::of(c)?),
            18 => Self::FMul(a, b, Rounding::of(c)?),
            19 => Self::FDiv(a, b, Rounding::of(c)?),
            20 => Self::FEq(a, b),
            21 => Self::FLt(a, b),
            22 => Self::FIsNaN(a),
            23 => Self::FSqrt(a, Rounding::of(b)?),
            24 => Self::FRoundToIntegral(a, Rounding::of(b)?),
            25 => Self::BvToFp(a, Format::of(c)?),
            26 => Self::FpToIeeeBv(a),
            27 => Self::FpToSbv(a, Rounding::of(b)?, c),
            28 => Self::SbvToFp(a, Rounding::of(b)?, Format::of(c)?),
            29 => Self::FpToFp(a, Rounding::of(b)?, Format::of(c)?),
            _ => return None,
        })
    }

    /// Its row: kind, a, b, c.
    #[must_use]
    pub fn row(self) -> [u64; 4] {
        match self {
            Self::Input { number, bits } => [1, number, bits, 0],
            Self::Temporary { number, bits } => [2, number, bits, 0],
            Self::Slot { number, bits } => [3, number, bits, 0],
            Self::Status => [4, 0, 0, 0],
            Self::Flag(flag) => [5, flag.number(), 0, 0],
            Self::Constant { value, bits } => {
                let [low, high] = words(value);
                [6, low, high, bits]
            }
            Self::And(a, b) => [7, a, b, 0],
            Self::Xor(a, b) => [8, a, b, 0],
            Self::Eq(a, b) => [9, a, b, 0],
            Self::BoolAnd(a, b) => [10, a, b, 0],
            Self::BoolOr(a, b) => [11, a, b, 0],
            Self::BoolNot(a) => [12, a, 0, 0],
            Self::Ite {
                condition,
                then,
                otherwise,
            } => [13, condition, then, otherwise],
            Self::Extract { source, hi, lo } => [14, source, hi, lo],
            Self::Concat { high, low } => [15, high, low, 0],
            Self::FAdd(a, b, r) => [16, a, b, r.number()],
            Self::FSub(a, b, r) => [17, a, b, r.number()],
            Self::FMul(a, b, r) => [18, a, b, r.number()],
            Self::FDiv(a, b, r) => [19, a, b, r.number()],
            Self::FEq(a, b) => [20, a, b, 0],
            Self::FLt(a, b) => [21, a, b, 0],
            Self::FIsNaN(a) => [22, a, 0, 0],
            Self::FSqrt(a, r) => [23, a, r.number(), 0],
            Self::FRoundToIntegral(a, r) => [24, a, r.number(), 0],
            Self::BvToFp(a, format) => [25, a, 0, format.number()],
            Self::FpToIeeeBv(a) => [26, a, 0, 0],
            Self::FpToSbv(a, r, bits) => [27, a, r.number(), bits],
            Self::SbvToFp(a, r, format) => [28, a, r.number(), format.number()],
            Self::FpToFp(a, r, format) => [29, a, r.number(), format.number()],
        }
    }

    /// Its operands, in the order in which they stand in its row.
    ///
    /// ```
    /// # use sleetgate::Node;
    /// let choice = Node::Ite { condition: 9, then: 4, otherwise: 7 };
    /// assert!(choice.operands().eq([9, 4, 7]));
    /// let bit = Node::Extract { source: 5, hi: 8, lo: 8 };
    /// assert!(bit.operands().eq([5]));
    /// assert_eq!(Node::Status.operands().len(), 0);
    /// ```
    #[must_use]
    pub fn operands(
        self,
    ) -> impl DoubleEndedIterator<Item = u64> + ExactSizeIterator + Clone + use<> {
        self.row().into_iter().skip(1).take(self.arity())
    }

    /// How many operands it has. They are the first fields of its row.
    fn arity(self) -> usize {
        match self {
            Self::Input { .. }
            | Self::Temporary { .. }
            | Self::Slot { .. }
            | Self::Status
            | Self::Flag(_)
            | Self::Constant { .. } => 0,
            Self::BoolNot(_)
            | Self::Extract { .. }
            | Self::FIsNaN(_)
            | Self::FSqrt(..)
            | Self::FRoundToIntegral(..)
            | Self::BvToFp(..)
            | Self::FpToIeeeBv(_)
            | Self::FpToSbv(..)
            | Self::SbvToFp(..)
            | Self::FpToFp(..) => 1,
            Self::And(..)
            | Self::Xor(..)
            | Self::Eq(..)
            | Self::BoolAnd(..)
            | Self::BoolOr(..)
            | Self::Concat { .. }
            | Self::FAdd(..)
            | Self::FSub(..)
            | Self::FMul(..)
            | Self::FDiv(..)
            | Self::FEq(..)
            | Self::FLt(..) => 2,
            Self::Ite { .. } => 3,
        }
    }

    /// The words of a list of these nodes, for [`Nodes::new`].
    ///
    /// ```
    /// # use sleetgate::Node;
    /// assert_eq!(Node::words(&[Node::Status, Node::BoolNot(0)]), [4, 0, 0, 0, 12, 0, 0, 0]);
    /// ```
    #[must_use]
    pub fn words(nodes: &[Self]) -> Vec<u64> {
        nodes.iter().flat_map(|node| node.row()).collect()
    }
}

/// The words of a value, low first.
pub(crate) fn words(value: u128) -> [u64; 2] {
    let low = value & u128::from(u64::MAX);
    [low, value >> 64].map(|part| u64::try_from(part).unwrap_or_default())
}

/// A list of nodes as it lies in memory, four words each. Words beyond
/// the last whole row are no part of it.
#[derive(Debug, Clone, Copy, PartialEq, Eq)]
pub struct Nodes<'a>(Rows<'a>);

impl<'a> Nodes<'a> {
    /// The list in these words.
    ///
    /// ```
    /// # use sleetgate::{Node, Nodes};
    /// let words = [4, 0, 0, 0, 99, 0, 0, 0];
    /// let nodes = Nodes::new(&words);
    /// assert_eq!((nodes.len(), nodes.get(0), nodes.get(1)), (2, Some(Node::Status), None));
    /// ```
    #[must_use]
    pub fn new(words: &'a [u64]) -> Self {
        Self(Rows(words))
    }

    /// How many there are.
    #[must_use]
    pub fn len(self) -> usize {
        self.0.len()
    }

    /// Whether there are none.
    #[must_use]
    pub fn is_empty(self) -> bool {
        self.len() == 0
    }

    /// The node of that number.
    #[must_use]
    pub fn get(self, number: u64) -> Option<Node> {
        self.0.get(number).and_then(Node::of)
    }

    /// All of them; a row that is no node ends them.
    #[must_use]
    pub fn iter(self) -> Iter<'a, Node> {
        self.0.iter(Node::of)
    }

    /// The words.
    #[must_use]
    pub fn words(self) -> &'a [u64] {
        self.0.0
    }
}

/// ```
/// # use sleetgate::{Node, Nodes};
/// let words = Node::words(&[Node::Status, Node::BoolNot(0)]);
/// let mut seen = Vec::new();
/// for node in Nodes::new(&words) {
///     seen.push(node);
/// }
/// assert_eq!(seen, [Node::Status, Node::BoolNot(0)]);
/// ```
impl<'a> IntoIterator for Nodes<'a> {
    type Item = Node;
    type IntoIter = Iter<'a, Node>;

    fn into_iter(self) -> Self::IntoIter {
        self.iter()
    }
}

impl<'a> IntoIterator for &Nodes<'a> {
    type Item = Node;
    type IntoIter = Iter<'a, Node>;

    fn into_iter(self) -> Self::IntoIter {
        self.iter()
    }
}
