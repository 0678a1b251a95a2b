//! Which nodes have a sort, and which: the manual, section 5, with the
//! fields of each kind from section 4.

use crate::state::{ROW, room};
use crate::{MODELLED, NO_SORT, TOO_SHORT};

/// The widest bits.
pub const WIDEST: u64 = 80;

/// A float format, by its bits.
#[derive(Debug, Clone, Copy, PartialEq, Eq)]
pub struct Format {
    pub exponent: u32,
    /// The significand's bits, the integer bit among them.
    pub significand: u32,
}

impl Format {
    pub const SINGLE: Self = Self::new(8, 24);
    pub const DOUBLE: Self = Self::new(11, 53);
    pub const EXTENDED: Self = Self::new(15, 64);
    pub const ALL: [Self; 3] = [Self::SINGLE, Self::DOUBLE, Self::EXTENDED];

    const fn new(exponent: u32, significand: u32) -> Self {
        Self {
            exponent,
            significand,
        }
    }

    /// Its number in a node: 2072, 2869 or 3904.
    #[must_use]
    pub fn number(self) -> u64 {
        (self.exponent * 256 + self.significand).into()
    }

    /// Bits of a pattern, which has no integer bit: 32, 64 or 79.
    #[must_use]
    pub fn width(self) -> u64 {
        (self.exponent + self.significand).into()
    }

    pub(crate) fn of(number: u64) -> Option<Self> {
        Self::ALL.into_iter().find(|f| f.number() == number)
    }
}

/// What a node can be.
#[derive(Debug, Clone, Copy, PartialEq, Eq)]
pub enum Sort {
    /// Bits of a width from 1 to 80.
    Bits(u64),
    Float(Format),
}

impl Sort {
    /// Bits of a value: a float's is its pattern.
    #[must_use]
    pub fn width(self) -> u64 {
        match self {
            Self::Bits(width) => width,
            Self::Float(format) => format.width(),
        }
    }

    pub(crate) fn bits(self) -> Option<u64> {
        match self {
            Self::Bits(width) => Some(width),
            Self::Float(_) => None,
        }
    }

    pub(crate) fn float(self) -> Option<Format> {
        match self {
            Self::Bits(_) => None,
            Self::Float(format) => Some(format),
        }
    }
}

/// A verdict: its number, and the node that it names or 0.
#[derive(Debug, Clone, Copy, PartialEq, Eq)]
pub struct Verdict {
    pub number: u32,
    pub node: u64,
}

impl Verdict {
    pub const PASSED: Self = Self::new(MODELLED, 0);
    pub const SHORT: Self = Self::new(TOO_SHORT, 0);

    #[must_use]
    pub const fn new(number: u32, node: u64) -> Self {
        Self { number, node }
    }
}

/// The verdict on the first `count` nodes of a list.
#[must_use]
pub fn check(nodes: &[u64], count: usize) -> Verdict {
    match sorts(nodes, count) {
        Ok(_) => Verdict::PASSED,
        Err(verdict) => verdict,
    }
}

/// The sorts of the first `count` nodes of a list, or the verdict.
///
/// # Errors
/// 10 where the count is over the room, 8 with the first node that has
/// no sort.
pub fn sorts(nodes: &[u64], count: usize) -> Result<Vec<Sort>, Verdict> {
    if count as u64 > room(nodes.len()) {
        return Err(Verdict::SHORT);
    }
    let mut sorts = Vec::with_capacity(count);
    for row in nodes.chunks_exact(ROW).take(count) {
        let row = row.try_into().expect("four words");
        match sort(row, &sorts) {
            Some(sort) => sorts.push(sort),
            None => return Err(Verdict::new(NO_SORT, sorts.len() as u64)),
        }
    }
    Ok(sorts)
}

/// The sort of a row, where the nodes before it have these.
#[must_use]
pub fn sort(&[kind, a, b, c]: &[u64; ROW], earlier: &[Sort]) -> Option<Sort> {
    let row = Operands { a, b, c, earlier };
    match kind {
        1 => row.variable(&[79, 16]),
        2 | 3 => row.variable(&[16, 32, 64, 80]),
        4 => when(a == 0 && b == 0 && c == 0, Sort::Bits(16)),
        5 => when(a <= 2 && b == 0 && c == 0, Sort::Bits(1)),
        6 => constant(a, b, c),
        7 | 8 => row.unused(c)?.bits_alike(a, b).map(Sort::Bits),
        9 => row.unused(c)?.bits_alike(a, b).map(|_| Sort::Bits(1)),
        10 | 11 => row.unused(c)?.truths(&[a, b]),
        12 => row.unused(b)?.unused(c)?.truths(&[a]),
        13 => row.truths(&[a]).and(row.bits_alike(b, c)).map(Sort::Bits),
        14 => extracted(row.bits(a)?, b, c),
        15 => joined(row.unused(c)?.bits(a)?, row.bits(b)?),
        16..=19 => row.rounding(c)?.floats_alike(a, b).map(Sort::Float),
        20 | 21 => row.unused(c)?.floats_alike(a, b).map(|_| Sort::Bits(1)),
        22 => row.unused(b)?.unused(c)?.float(a).map(|_| Sort::Bits(1)),
        23 | 24 => row.rounding(b)?.unused(c)?.float(a).map(Sort::Float),
        25 => row.unused(b)?.as_float(),
        26 => row.unused(b)?.unused(c)?.pattern(),
        27 => row.rounding(b)?.float_to_integer(),
        28 => row.rounding(b)?.integer_to_float(),
        29 => row
            .rounding(b)?
            .float(a)
            .and(Format::of(c))
            .map(Sort::Float),
        _ => None,
    }
}

fn when(test: bool, sort: Sort) -> Option<Sort> {
    test.then_some(sort)
}

/// A constant has 1 to 80 bits and fits them.
fn constant(low: u64, high: u64, bits: u64) -> Option<Sort> {
    let value = u128::from(high) << 64 | u128::from(low);
    when(
        (1..=WIDEST).contains(&bits) && value >> bits == 0,
        Sort::Bits(bits),
    )
}

fn extracted(width: u64, hi: u64, lo: u64) -> Option<Sort> {
    (lo <= hi && hi < width).then(|| Sort::Bits(hi - lo + 1))
}

fn joined(high: u64, low: u64) -> Option<Sort> {
    when(high + low <= WIDEST, Sort::Bits(high + low))
}

/// The fields of a row, and the sorts that its operands can have.
#[derive(Clone, Copy)]
struct Operands<'a> {
    a: u64,
    b: u64,
    c: u64,
    earlier: &'a [Sort],
}

impl Operands<'_> {
    /// An unused field is 0.
    fn unused(self, field: u64) -> Option<Self> {
        (field == 0).then_some(self)
    }

    /// A rounding is nearest even or toward zero.
    fn rounding(self, field: u64) -> Option<Self> {
        (field <= 1).then_some(self)
    }

    /// A number, and one of the listed widths.
    fn variable(self, widths: &[u64]) -> Option<Sort> {
        let listed = widths.contains(&self.b);
        when(listed && self.c == 0, Sort::Bits(self.b))
    }

    /// The sort of an operand, which is an earlier node.
    fn sort(self, operand: u64) -> Option<Sort> {
        self.earlier.get(usize::try_from(operand).ok()?).copied()
    }

    fn bits(self, operand: u64) -> Option<u64> {
        self.sort(operand)?.bits()
    }

    fn float(self, operand: u64) -> Option<Format> {
        self.sort(operand)?.float()
    }

    /// The width that two operands share.
    fn bits_alike(self, x: u64, y: u64) -> Option<u64> {
        let width = self.bits(x)?;
        (self.bits(y)? == width).then_some(width)
    }

    /// The format that two operands share.
    fn floats_alike(self, x: u64, y: u64) -> Option<Format> {
        let format = self.float(x)?;
        (self.float(y)? == format).then_some(format)
    }

    /// Width 1, of operands of width 1.
    fn truths(self, operands: &[u64]) -> Option<Sort> {
        let truth = |&operand: &u64| self.bits(operand) == Some(1);
        when(operands.iter().all(truth), Sort::Bits(1))
    }

    /// Kind 25: the source is as wide as a pattern of the format.
    fn as_float(self) -> Option<Sort> {
        let format = Format::of(self.c)?;
        when(self.bits(self.a)? == format.width(), Sort::Float(format))
    }

    /// Kind 26.
    fn pattern(self) -> Option<Sort> {
        Some(Sort::Bits(self.float(self.a)?.width()))
    }

    /// Kind 27.
    fn float_to_integer(self) -> Option<Sort> {
        self.float(self.a)?;
        when([16, 32, 64].contains(&self.c), Sort::Bits(self.c))
    }

    /// Kind 28.
    fn integer_to_float(self) -> Option<Sort> {
        let format = Format::of(self.c)?;
        let listed = [16, 32, 64].contains(&self.bits(self.a)?);
        when(listed && format == Format::EXTENDED, Sort::Float(format))
    }
}

#[cfg(test)]
mod tests {
    use super::{Format, Verdict, check, constant, extracted, joined};

    #[test]
    fn formats_have_the_numbers_and_widths_of_the_manual() {
        assert_eq!(Format::ALL.map(Format::number), [2072, 2869, 3904]);
        assert_eq!(Format::ALL.map(Format::width), [32, 64, 79]);
    }

    #[test]
    fn the_nodes_of_faddp_have_sorts_and_each_changed_word_is_a_fault() {
        let rows = [
            [1, 0, 79, 0],
            [1, 1, 79, 0],
            [25, 1, 0, 3904],
            [25, 0, 0, 3904],
            [16, 2, 3, 0],
            [26, 4, 0, 0],
        ];
        let good = rows.concat();
        assert_eq!(check(&good, 6), Verdict::PASSED);
        // Numbers of inputs are free; the rest is not.
        let free = [1, 5];
        for at in (0..good.len()).filter(|at| !free.contains(at)) {
            let mut bad = good.clone();
            bad[at] = 9_999;
            assert_eq!(check(&bad, 6), Verdict::new(8, at as u64 / 4), "word {at}");
        }
    }

    #[test]
    fn a_count_over_the_room_is_told_before_a_fault() {
        assert_eq!(check(&[0; 8], 2), Verdict::new(8, 0));
        assert_eq!(check(&[0; 7], 2), Verdict::SHORT);
        assert_eq!(check(&[0; 7], 0), Verdict::PASSED);
        assert_eq!(check(&[0; 4], usize::MAX), Verdict::SHORT);
    }

    #[test]
    fn limits_of_widths() {
        assert!(constant(1, 0, 1).is_some() && constant(2, 0, 1).is_none());
        assert!(constant(0, 0xffff, 80).is_some() && constant(0, 0x1_0000, 80).is_none());
        assert!(constant(0, 0, 0).is_none() && constant(0, 0, 81).is_none());
        assert!(joined(79, 1).is_some() && joined(80, 1).is_none());
        assert!(extracted(8, 7, 7).is_some() && extracted(8, 8, 0).is_none());
        assert!(extracted(8, 3, 4).is_none());
    }
}
