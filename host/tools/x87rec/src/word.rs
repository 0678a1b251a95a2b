//! The control word, as far as the code tells it.

/// The fields of precision and rounding.
const PRECISION: u16 = 0x300;
const ROUNDING: u16 = 0xc00;

/// The word after a reset: nearest even, extended, all exceptions masked.
const RESET: u16 = 0x37f;

/// A word of 16 bits, each known, the same as in the control word on
/// entry, or neither.
#[derive(Debug, Clone, Copy, PartialEq, Eq)]
pub struct Word {
    known: u16,
    value: u16,
    entry: u16,
    /// From where on a store through a pointer may have changed the word
    /// where it was kept.
    pub crossed: Option<u64>,
}

/// How results are rounded.
#[derive(Debug, Clone, Copy, PartialEq, Eq)]
pub enum Rounding {
    NearestEven,
    Down,
    Up,
    TowardZero,
}

impl Word {
    /// The control word on entry.
    pub const ENTRY: Self = Self {
        known: 0,
        value: 0,
        entry: u16::MAX,
        crossed: None,
    };

    /// A word of which nothing is known.
    pub const UNKNOWN: Self = Self {
        known: 0,
        value: 0,
        entry: 0,
        crossed: None,
    };

    /// The word that a reset loads.
    pub const RESET: Self = Self::constant(RESET);

    pub const fn constant(value: u16) -> Self {
        Self {
            known: u16::MAX,
            value,
            entry: 0,
            crossed: None,
        }
    }

    /// The word with these bits set.
    pub fn or(self, bits: u16) -> Self {
        Self {
            known: self.known | bits,
            value: self.value | bits,
            entry: self.entry & !bits,
            crossed: self.crossed,
        }
    }

    /// The word with all but these bits cleared.
    pub fn and(self, bits: u16) -> Self {
        Self {
            known: self.known | !bits,
            value: self.value & bits,
            entry: self.entry & bits,
            crossed: self.crossed,
        }
    }

    /// The word with these bits turned.
    pub fn xor(self, bits: u16) -> Self {
        Self {
            known: self.known,
            value: (self.value ^ bits) & self.known,
            entry: self.entry & !bits,
            crossed: self.crossed,
        }
    }

    /// The word with the bits of a mask replaced.
    pub fn with(self, mask: u16, bits: u16) -> Self {
        self.and(!mask).or(bits & mask)
    }

    /// The word, kept where this may have changed it.
    pub fn across(self, store: Option<u64>) -> Self {
        Self {
            crossed: self.crossed.or(store),
            ..self
        }
    }

    /// What is known whichever of two words it is.
    pub fn meet(self, other: Self) -> Self {
        let known = self.known & other.known & !(self.value ^ other.value);
        Self {
            known,
            value: self.value & known,
            entry: self.entry & other.entry,
            crossed: self.crossed.or(other.crossed),
        }
    }

    /// The rounding, if it is known; on entry it is taken to be to nearest
    /// even.
    pub fn rounding(self) -> Option<Rounding> {
        Some(match self.field(ROUNDING, RESET)? >> 10 {
            0 => Rounding::NearestEven,
            1 => Rounding::Down,
            2 => Rounding::Up,
            _ => Rounding::TowardZero,
        })
    }

    /// The bits of a significand, if they are known; on entry they are
    /// taken to be 64.
    pub fn precision(self) -> Option<u32> {
        match self.field(PRECISION, RESET)? >> 8 {
            0 => Some(24),
            2 => Some(53),
            3 => Some(64),
            _ => None,
        }
    }

    /// A field, if all its bits are known or those of the entry.
    fn field(self, mask: u16, entry: u16) -> Option<u16> {
        let told = (self.known | self.entry) & mask == mask;
        told.then_some((self.value | entry & self.entry) & mask)
    }

    /// The word, where all of it is known.
    pub fn is_constant(self) -> Option<u16> {
        (self.known == u16::MAX).then_some(self.value)
    }

    /// Whether rounding and precision are those of the entry.
    pub fn is_entry(self) -> bool {
        self.entry & (ROUNDING | PRECISION) == ROUNDING | PRECISION
    }
}

impl Rounding {
    pub fn words(self) -> &'static str {
        match self {
            Self::NearestEven => "rounds to nearest even",
            Self::Down => "rounds down, as floor does",
            Self::Up => "rounds up, as ceil does",
            Self::TowardZero => "rounds toward zero",
        }
    }
}

#[cfg(test)]
mod tests {
    use super::{Rounding, Word};

    #[test]
    fn the_entry_is_taken_to_be_reset() {
        assert_eq!(Word::ENTRY.rounding(), Some(Rounding::NearestEven));
        assert_eq!(Word::ENTRY.precision(), Some(64));
        assert_eq!(Word::RESET.rounding(), Some(Rounding::NearestEven));
        assert_eq!(Word::UNKNOWN.rounding(), None);
        assert_eq!(Word::UNKNOWN.precision(), None);
    }

    #[test]
    fn fields_are_set_by_the_compilers_idioms() {
        let zero = Word::ENTRY.or(0xc00);
        assert_eq!(zero.rounding(), Some(Rounding::TowardZero));
        assert_eq!(zero.precision(), Some(64));
        assert!(!zero.is_entry() && Word::ENTRY.is_entry());
        let floor = Word::ENTRY.and(0xf3ff).or(0x400);
        assert_eq!(floor.rounding(), Some(Rounding::Down));
        let ceiling = Word::ENTRY.and(0xf3ff).or(0x800);
        assert_eq!(ceiling.rounding(), Some(Rounding::Up));
        // `mov ah, 12` clears the precision as well.
        let old = Word::ENTRY.with(0xff00, 0xc00);
        assert_eq!(old.rounding(), Some(Rounding::TowardZero));
        assert_eq!(old.precision(), Some(24));
        assert_eq!(Word::constant(0x27f).precision(), Some(53));
        // One bit alone leaves the field to what it was.
        assert_eq!(Word::UNKNOWN.or(0x400).rounding(), None);
        assert_eq!(
            Word::UNKNOWN.or(0xc00).rounding(),
            Some(Rounding::TowardZero)
        );
        assert_eq!(Word::ENTRY.xor(0xc00).rounding(), None);
        assert_eq!(
            Word::RESET.xor(0xc00).rounding(),
            Some(Rounding::TowardZero)
        );
    }

    #[test]
    fn two_words_meet_where_they_agree() {
        let zero = Word::ENTRY.or(0xc00);
        assert_eq!(Word::ENTRY.meet(zero).rounding(), None);
        assert_eq!(Word::ENTRY.meet(zero).precision(), Some(64));
        assert_eq!(zero.meet(zero), zero);
        assert_eq!(zero.meet(Word::UNKNOWN), Word::UNKNOWN);
    }
}
