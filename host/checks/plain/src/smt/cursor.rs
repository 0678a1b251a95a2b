//! Bytes that are read token by token.

use std::iter::successors;
use std::ops::RangeInclusive;

/// How far the bytes begin some text of the subset.
#[derive(Debug, Clone, Copy, PartialEq, Eq)]
pub struct Stop(pub usize);

/// A token, or where the reading stops.
pub type Token<T> = Result<T, Stop>;

/// The bytes, and the place of the next token.
pub struct Cursor<'a> {
    bytes: &'a [u8],
    at: usize,
}

impl<'a> Cursor<'a> {
    pub fn new(bytes: &'a [u8]) -> Self {
        Self { bytes, at: 0 }
    }

    fn rest(&self) -> &'a [u8] {
        &self.bytes[self.at..]
    }

    pub fn is_at_end(&self) -> bool {
        self.rest().is_empty()
    }

    /// Nothing more can stand here.
    pub fn stop<T>(&self) -> Token<T> {
        Err(Stop(self.at))
    }

    pub fn fixed(&mut self, text: &str) -> Token<()> {
        self.one_of([(text, "", ())])
    }

    /// The value of the member of a family that stands here. A member is a
    /// name with a mark behind it, and none is the beginning of another.
    ///
    /// # Panics
    /// Where the family has no member: then what was read so far began no
    /// text of the subset.
    pub fn one_of<'b, V>(
        &mut self,
        family: impl IntoIterator<Item = (&'b str, &'b str, V)>,
    ) -> Token<V> {
        let rest = self.rest();
        let mut longest = None;
        for (name, mark, value) in family {
            let mut alike = shared(rest, name);
            if alike == name.len() {
                alike += shared(&rest[alike..], mark);
            }
            if alike == name.len() + mark.len() {
                self.at += alike;
                return Ok(value);
            }
            longest = longest.max(Some(alike));
        }
        Err(Stop(self.at + longest.expect("a text goes on here")))
    }

    /// A number of these ranges in decimal digits, without leading zeros, and
    /// a mark behind it.
    ///
    /// # Panics
    /// Where there is no such number.
    pub fn number(&mut self, ranges: &[RangeInclusive<u64>], mark: &str) -> Token<u64> {
        assert!(!ranges.is_empty(), "a text goes on here");
        let (mut number, mut digits) = (0, 0);
        for byte in self.rest() {
            let longer = number * 10 + u128::from(byte.wrapping_sub(b'0'));
            let leading = digits == 1 && number == 0;
            if leading || !byte.is_ascii_digit() || !begins(longer, ranges) {
                break;
            }
            number = longer;
            digits += 1;
        }
        let allowed = |range: &RangeInclusive<u64>| wide(range).contains(&number);
        if digits == 0 || !ranges.iter().any(allowed) {
            return Err(Stop(self.at + digits));
        }
        self.at += digits;
        self.fixed(mark)?;
        Ok(u64::try_from(number).expect("it is in a range"))
    }

    /// So many digits out of these, as a binary number.
    pub fn binary(&mut self, width: u64, digits: &[u8]) -> Token<u128> {
        let mut value = 0;
        for _ in 0..width {
            match self.rest().first() {
                Some(digit) if digits.contains(digit) => value = value << 1 | u128::from(digit & 1),
                _ => return self.stop(),
            }
            self.at += 1;
        }
        Ok(value)
    }
}

/// How many bytes of a text stand at the beginning of others.
fn shared(bytes: &[u8], text: &str) -> usize {
    let pairs = bytes.iter().zip(text.as_bytes());
    pairs.take_while(|(one, other)| one == other).count()
}

fn wide(range: &RangeInclusive<u64>) -> RangeInclusive<u128> {
    u128::from(*range.start())..=u128::from(*range.end())
}

/// Whether the digits of a number are the first ones of some number of these
/// ranges. No number goes on behind a leading zero.
fn begins(number: u128, ranges: &[RangeInclusive<u64>]) -> bool {
    ranges.iter().map(wide).any(|range| {
        let units = successors(Some(1), |unit| (number != 0).then_some(unit * 10));
        let mut units = units.take_while(|unit| number * unit <= *range.end());
        units.any(|unit| *range.start() < (number + 1) * unit)
    })
}

#[cfg(test)]
mod tests {
    use super::{Cursor, Stop, begins};
    use std::ops::RangeInclusive;

    /// As `begins` by the numbers' texts.
    fn by_texts(number: u128, ranges: &[RangeInclusive<u64>]) -> bool {
        let mut all = ranges.iter().cloned().flatten();
        all.any(|n| n.to_string().starts_with(&number.to_string()))
    }

    #[test]
    fn digits_begin_a_number_or_none() {
        let families: [&[RangeInclusive<u64>]; 5] = [
            &[0..=0],
            &[7..=7, 30..=35],
            &[98..=301],
            &[0..=12, 1234..=1240],
            &[100..=100, 999..=1000],
        ];
        for ranges in families {
            for number in 0..3_000 {
                assert_eq!(begins(number, ranges), by_texts(number, ranges), "{number}");
            }
        }
    }

    #[test]
    fn numbers_end_where_a_mark_follows() {
        let read = |text: &str, range| Cursor::new(text.as_bytes()).number(&[range], "_");
        assert_eq!(read("12_", 0..=99), Ok(12));
        assert_eq!(read("012_", 0..=99), Err(Stop(1)));
        assert_eq!(read("12", 0..=99), Err(Stop(2)));
        assert_eq!(read("123_", 0..=99), Err(Stop(2)));
        assert_eq!(read("_", 0..=99), Err(Stop(0)));
        assert_eq!(read("1_", 10..=19), Err(Stop(1)));
        let most = u64::MAX.to_string();
        assert_eq!(read(&format!("{most}_"), 0..=u64::MAX), Ok(u64::MAX));
        let over = "18446744073709551616_";
        assert_eq!(read(over, 0..=u64::MAX), Err(Stop(19)));
        assert_eq!(read(&format!("{most}0_"), 0..=u64::MAX), Err(Stop(20)));
    }

    #[test]
    fn the_longest_beginning_of_a_member_counts() {
        let family = || [("ab", "c", 1), ("abd", "", 2), ("x", "", 3)];
        for (text, token) in [
            ("abc", Ok(1)),
            ("abd", Ok(2)),
            ("abe", Err(Stop(2))),
            ("ab", Err(Stop(2))),
            ("y", Err(Stop(0))),
        ] {
            assert_eq!(Cursor::new(text.as_bytes()).one_of(family()), token);
        }
    }
}
