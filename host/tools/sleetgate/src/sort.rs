//! Sorts: what the value of a node is.

use crate::{Flag, Format, Node, Nodes};

/// The widest bits.
const WIDEST: u64 = 80;

/// The sort of what is true or false.
const TRUTH: Sort = Sort::Bits(1);

/// What the value of a node is (manual, section 5). Bits come before
/// floats, narrow before wide.
#[derive(Debug, Clone, Copy, PartialEq, Eq, PartialOrd, Ord, Hash)]
pub enum Sort {
    /// Bits of a width from 1 to 80.
    Bits(u32),
    /// A float of a format.
    Float(Format),
}

impl Sort {
    /// Bits of a value; a float's value is its pattern.
    ///
    /// ```
    /// # use sleetgate::{Format, Sort};
    /// assert_eq!((Sort::Bits(16).width(), Sort::Float(Format::Extended).width()), (16, 79));
    /// ```
    #[must_use]
    pub fn width(self) -> u32 {
        match self {
            Self::Bits(width) => width,
            Self::Float(format) => format.width(),
        }
    }

    fn bits(self) -> Option<u32> {
        match self {
            Self::Bits(width) => Some(width),
            Self::Float(_) => None,
        }
    }

    fn float(self) -> Option<Format> {
        match self {
            Self::Bits(_) => None,
            Self::Float(format) => Some(format),
        }
    }
}

impl Nodes<'_> {
    /// The sort of each node, up to the first node that has none.
    ///
    /// So there are as many sorts as nodes where [`check`](crate::check)
    /// passes the list; where it names a node, there are the sorts of the
    /// nodes before that one. A list of more than 65,535 nodes, which
    /// `check` refuses, has its sorts all the same. This is a table in
    /// Rust, compared with the proved check by running; the library is not
    /// called. It takes one step for each node.
    ///
    /// ```
    /// use sleetgate::{Format, Node, Nodes, Sort};
    ///
    /// let place = Node::Input { number: 0, bits: 79 };
    /// let float = Node::BvToFp(0, Format::Extended);
    /// let words = Node::words(&[place, float, Node::FIsNaN(1), Node::FIsNaN(0), place]);
    /// let sorts = Nodes::new(&words).sorts();
    /// assert_eq!(sorts, [Sort::Bits(79), Sort::Float(Format::Extended), Sort::Bits(1)]);
    /// ```
    #[must_use]
    pub fn sorts(self) -> Vec<Sort> {
        self.first_sorts(self.len())
    }

    /// The sort of the node of that number; `None` where the list has no
    /// such node, or where that node or one before it has no sort.
    ///
    /// It looks at all nodes up to that one: whoever asks for many takes
    /// [`Nodes::sorts`].
    ///
    /// ```
    /// # use sleetgate::{Node, Nodes, Sort};
    /// let words = Node::words(&[Node::Status, Node::Extract { source: 0, hi: 14, lo: 8 }]);
    /// let nodes = Nodes::new(&words);
    /// assert_eq!((nodes.sort(1), nodes.sort(2)), (Some(Sort::Bits(7)), None));
    /// ```
    #[must_use]
    pub fn sort(self, number: u64) -> Option<Sort> {
        let number = usize::try_from(number).ok()?;
        let sorts = self.first_sorts(number.checked_add(1)?);
        sorts.get(number).copied()
    }

    /// The sorts of at most so many nodes.
    fn first_sorts(self, most: usize) -> Vec<Sort> {
        let mut sorts = Vec::new();
        for node in self.iter().take(most) {
            match node.sort(&sorts) {
                Some(sort) => sorts.push(sort),
                None => break,
            }
        }
        sorts
    }
}

impl Node {
    /// The sort of this node, where the nodes before it have the sorts
    /// `earlier`; `None` where it has none.
    ///
    /// ```
    /// use sleetgate::{Node, Sort};
    ///
    /// let earlier = [Sort::Bits(16), Sort::Bits(64)];
    /// let joined = Node::Concat { high: 0, low: 1 };
    /// assert_eq!(joined.sort(&earlier), Some(Sort::Bits(80)));
    /// assert_eq!(Node::And(0, 1).sort(&earlier), None);
    /// ```
    #[must_use]
    pub fn sort(self, earlier: &[Sort]) -> Option<Sort> {
        let of = Earlier(earlier);
        match self {
            Self::Input { bits, .. } => listed(bits, &[16, 79]),
            Self::Temporary { bits, .. } | Self::Slot { bits, .. } => {
                listed(bits, &[16, 32, 64, 80])
            }
            Self::Status => Some(Sort::Bits(16)),
            Self::Flag(Flag::CF | Flag::PF | Flag::ZF) => Some(TRUTH),
            Self::Flag(Flag::OF | Flag::SF) => None,
            Self::Constant { value, bits } => constant(value, bits),
            Self::And(a, b) | Self::Xor(a, b) => of.same_bits(a, b),
            Self::Eq(a, b) => of.same_bits(a, b).and(Some(TRUTH)),
            Self::BoolAnd(a, b) | Self::BoolOr(a, b) => of.truth(a).and(of.truth(b)),
            Self::BoolNot(a) => of.truth(a),
            Self::Ite {
                condition,
                then,
                otherwise,
            } => of.truth(condition).and(of.same_bits(then, otherwise)),
            Self::Extract { source, hi, lo } => extract(of.bits(source)?, hi, lo),
            Self::Concat { high, low } => sum(of.bits(high)?, of.bits(low)?),
            _ => self.float_sort(of),
        }
    }

    /// The same for the kinds that have a float operand or are floats.
    fn float_sort(self, of: Earlier<'_>) -> Option<Sort> {
        match self {
            Self::FAdd(a, b, _)
            | Self::FSub(a, b, _)
            | Self::FMul(a, b, _)
            | Self::FDiv(a, b, _) => of.same_float(a, b),
            Self::FEq(a, b) | Self::FLt(a, b) => of.same_float(a, b).and(Some(TRUTH)),
            Self::FIsNaN(a) => of.float(a).and(Some(TRUTH)),
            Self::FSqrt(a, _) | Self::FRoundToIntegral(a, _) => of.float(a).map(Sort::Float),
            Self::BvToFp(a, format) => {
                (of.bits(a)? == format.width()).then_some(Sort::Float(format))
            }
            Self::FpToIeeeBv(a) => of.float(a).map(|format| Sort::Bits(format.width())),
            Self::FpToSbv(a, _, bits) => of.float(a).and(listed(bits, &[16, 32, 64])),
            Self::SbvToFp(a, _, format @ Format::Extended) => {
                let integer = listed(of.bits(a)?.into(), &[16, 32, 64]);
                integer.and(Some(Sort::Float(format)))
            }
            Self::FpToFp(a, _, format) => of.float(a).and(Some(Sort::Float(format))),
            _ => None,
        }
    }
}

/// The sorts of the nodes before one.
#[derive(Clone, Copy)]
struct Earlier<'a>(&'a [Sort]);

impl Earlier<'_> {
    fn sort(self, operand: u64) -> Option<Sort> {
        self.0.get(usize::try_from(operand).ok()?).copied()
    }

    /// The width of an operand that is bits.
    fn bits(self, operand: u64) -> Option<u32> {
        self.sort(operand)?.bits()
    }

    /// The format of an operand that is a float.
    fn float(self, operand: u64) -> Option<Format> {
        self.sort(operand)?.float()
    }

    /// The sort of an operand that is one bit.
    fn truth(self, operand: u64) -> Option<Sort> {
        self.sort(operand).filter(|&sort| sort == TRUTH)
    }

    /// The sort of two operands that are bits of one width.
    fn same_bits(self, a: u64, b: u64) -> Option<Sort> {
        let width = self.bits(a)?;
        (self.bits(b)? == width).then_some(Sort::Bits(width))
    }

    /// The sort of two operands that are floats of one format.
    fn same_float(self, a: u64, b: u64) -> Option<Sort> {
        let format = self.float(a)?;
        (self.float(b)? == format).then_some(Sort::Float(format))
    }
}

/// Bits of one of these widths.
fn listed(bits: u64, widths: &[u64]) -> Option<Sort> {
    wide(bits).filter(|_| widths.contains(&bits))
}

/// Bits of a width from 1 to 80.
fn wide(bits: u64) -> Option<Sort> {
    let width = u32::try_from(bits).ok()?;
    (1..=WIDEST).contains(&bits).then_some(Sort::Bits(width))
}

/// A constant fits its bits.
fn constant(value: u128, bits: u64) -> Option<Sort> {
    wide(bits).filter(|sort| value >> sort.width() == 0)
}

/// The bits from `lo` to `hi` of so many.
fn extract(width: u32, hi: u64, lo: u64) -> Option<Sort> {
    if lo > hi || hi >= width.into() {
        return None;
    }
    wide(hi - lo + 1)
}

/// Bits side by side.
fn sum(high: u32, low: u32) -> Option<Sort> {
    wide(u64::from(high) + u64::from(low))
}
