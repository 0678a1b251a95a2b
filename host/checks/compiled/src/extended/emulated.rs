//! The arithmetic of the emulator's x87 unit, which is software of its own:
//! see [`differential::processor`].

use std::cmp::Ordering;

use differential::processor::asked;

use super::Extended;

impl Extended {
    /// The number of a pattern of 32 or 64 bits, or of an image of 80.
    #[must_use]
    pub fn of_pattern(bits: u128, width: u32) -> Option<Self> {
        match width {
            32 => Some(Self::of(asked(b"s=t", [bits, 0]))),
            64 => Some(Self::of(asked(b"l=t", [bits, 0]))),
            80 => Some(Self::of(bits)),
            _ => None,
        }
    }

    /// The number that an integer is.
    pub(super) fn of_whole(whole: i64) -> Self {
        Self::of(asked(b"q=t", [whole.cast_unsigned().into(), 0]))
    }

    /// The pattern of 32 or 64 bits, or the image of 80, of this number.
    #[must_use]
    pub fn pattern(self, width: u32) -> Option<u128> {
        match width {
            32 => Some(self.told(b"t=s")),
            64 => Some(self.told(b"t=l")),
            80 => Some(self.bits()),
            _ => None,
        }
    }

    /// The integer of 16, 32 or 64 bits that is nearest.
    #[must_use]
    pub fn integer(self, width: u32) -> Option<u128> {
        match width {
            16 => Some(self.told(b"t=h")),
            32 => Some(self.told(b"t=i")),
            64 => Some(self.told(b"t=q")),
            _ => None,
        }
    }

    #[must_use]
    pub fn plus(self, other: Self) -> Self {
        self.joined(b"t+t", other)
    }

    #[must_use]
    pub fn minus(self, other: Self) -> Self {
        self.joined(b"t-t", other)
    }

    #[must_use]
    pub fn times(self, other: Self) -> Self {
        self.joined(b"t*t", other)
    }

    #[must_use]
    pub fn over(self, other: Self) -> Self {
        self.joined(b"t/t", other)
    }

    #[must_use]
    pub fn root(self) -> Self {
        Self::of(self.told(b"trt"))
    }

    /// The whole number that is nearest.
    #[must_use]
    pub fn rounded(self) -> Self {
        Self::of(self.told(b"tnt"))
    }

    /// The whole number next to it toward zero.
    #[must_use]
    pub fn truncated(self) -> Self {
        Self::of(self.told(b"tzt"))
    }

    /// How it stands to another number; none beside a NaN.
    #[must_use]
    pub fn compared(self, other: Self) -> Option<Ordering> {
        match asked(b"t?h", [self.bits(), other.bits()]) {
            0 => Some(Ordering::Equal),
            1 => Some(Ordering::Greater),
            2 => None,
            _ => Some(Ordering::Less),
        }
    }

    /// The number whose image is in the low bytes.
    fn of(bits: u128) -> Self {
        Self(*bits.to_le_bytes().first_chunk().expect("16 bytes"))
    }

    fn bits(self) -> u128 {
        let mut bytes = [0; 16];
        bytes[..10].copy_from_slice(&self.0);
        u128::from_le_bytes(bytes)
    }

    /// What is stored of this number.
    fn told(self, letters: &[u8; 3]) -> u128 {
        asked(letters, [self.bits(), 0])
    }

    /// What two numbers make.
    fn joined(self, letters: &[u8; 3], other: Self) -> Self {
        Self::of(asked(letters, [self.bits(), other.bits()]))
    }
}
