//! The 80-bit image, field by field: sign, 15 exponent bits, the integer
//! bit, 63 fraction bits, in ten bytes, low byte first. A pattern is the
//! same without the integer bit.

use crate::{MODELLED, TOO_SHORT, TOO_WIDE};

/// Bytes of an image.
pub const IMAGE: usize = 10;

const EXPONENT: u32 = 15;
const FRACTION: u32 = 63;
/// Bits of a pattern.
const PATTERN: u32 = 1 + EXPONENT + FRACTION;

/// The fields of a pattern.
#[derive(Debug, Clone, Copy, PartialEq, Eq)]
pub struct Fields {
    pub sign: u128,
    pub exponent: u128,
    pub fraction: u128,
}

impl Fields {
    #[must_use]
    pub fn of(pattern: u128) -> Self {
        Self {
            sign: bits(pattern, FRACTION + EXPONENT, 1),
            exponent: bits(pattern, FRACTION, EXPONENT),
            fraction: bits(pattern, 0, FRACTION),
        }
    }

    #[must_use]
    pub fn pattern(self) -> u128 {
        (self.sign << EXPONENT | self.exponent) << FRACTION | self.fraction
    }

    /// The integer bit that is written: 1 exactly if the exponent is not
    /// zero.
    #[must_use]
    pub fn integer_bit(self) -> u128 {
        u128::from(self.exponent != 0)
    }
}

/// So many bits of a number from a place on.
fn bits(number: u128, from: u32, count: u32) -> u128 {
    number >> from & ((1 << count) - 1)
}

/// The pattern of an image whose integer bit is as it would be written;
/// any other image has no number.
#[must_use]
pub fn number(image: &[u8; IMAGE]) -> Option<u128> {
    let mut bytes = [0; 16];
    bytes[..IMAGE].copy_from_slice(image);
    let whole = u128::from_le_bytes(bytes);
    let fields = Fields {
        sign: bits(whole, FRACTION + 1 + EXPONENT, 1),
        exponent: bits(whole, FRACTION + 1, EXPONENT),
        fraction: bits(whole, 0, FRACTION),
    };
    (bits(whole, FRACTION, 1) == fields.integer_bit()).then(|| fields.pattern())
}

/// The image of a pattern.
#[must_use]
pub fn image(pattern: u128) -> [u8; IMAGE] {
    let fields = Fields::of(pattern);
    let top = fields.sign << EXPONENT | fields.exponent;
    let whole = (top << 1 | fields.integer_bit()) << FRACTION | fields.fraction;
    *whole.to_le_bytes().first_chunk().expect("ten bytes")
}

/// What reading answers: the pattern, or 10, or 9.
///
/// # Errors
/// 10 where the image has under ten bytes, 9 where the free pattern is
/// too wide.
pub fn read(image: &[u8], free: u128) -> Result<u128, u32> {
    let image = image.first_chunk().ok_or(TOO_SHORT)?;
    if free >> PATTERN != 0 {
        return Err(TOO_WIDE);
    }
    Ok(number(image).unwrap_or(free))
}

/// What writing answers; the first ten bytes change only where it is 0.
pub fn write(lent: &mut [u8], pattern: u128) -> u32 {
    let Some(lent) = lent.first_chunk_mut() else {
        return TOO_SHORT;
    };
    if pattern >> PATTERN != 0 {
        return TOO_WIDE;
    }
    *lent = image(pattern);
    MODELLED
}

#[cfg(test)]
mod tests {
    use super::{image, number, read, write};

    const ONE: u128 = 0x1fff << 64 | 0x8000_0000_0000_0000;

    #[test]
    fn p2_to_p5() {
        let one = [0, 0, 0, 0, 0, 0, 0, 0x80, 0xff, 0x3f];
        assert_eq!((image(ONE), number(&one)), (one, Some(ONE)));
        let minus_zero = [0, 0, 0, 0, 0, 0, 0, 0, 0, 0x80];
        assert_eq!(image(0x4000 << 64), minus_zero);
        assert_eq!(number(&[0, 0, 0, 0, 0, 0, 0, 0x80, 0, 0]), None);
        assert_eq!(number(&[0, 0, 0, 0, 0, 0, 0, 0, 0xff, 0x3f]), None);
    }

    #[test]
    fn refusals_in_their_order() {
        assert_eq!(read(&[0; 9], 1 << 79), Err(10));
        assert_eq!(read(&[0; 10], 1 << 79), Err(9));
        assert_eq!(read(&[0xff; 11], 7), Ok((1 << 79) - 1));
        assert_eq!(read(&[0, 0, 0, 0, 0, 0, 0, 0x80, 0, 0], 7), Ok(7));
        let mut lent = [7; 11];
        assert_eq!(write(&mut lent[..9], 1 << 79), 10);
        assert_eq!(write(&mut lent, 1 << 79), 9);
        assert_eq!(lent, [7; 11]);
        assert_eq!(write(&mut lent, 0), 0);
        assert_eq!(lent, [0, 0, 0, 0, 0, 0, 0, 0, 0, 0, 7]);
    }
}
