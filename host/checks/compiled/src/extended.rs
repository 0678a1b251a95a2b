//! Arithmetic in the 80-bit format, done by the processor; on a machine
//! that is not x86-64, by the emulator.

#[cfg(target_arch = "x86_64")]
mod native;

#[cfg(not(target_arch = "x86_64"))]
mod emulated;

/// A number of the stack, as the ten bytes of its register.
#[derive(Debug, Clone, Copy, PartialEq, Eq)]
pub struct Extended(pub [u8; 10]);

impl Extended {
    /// The number that a signed integer of so many bits is.
    #[must_use]
    pub fn of_integer(bits: u128, width: u32) -> Option<Self> {
        let unused = 128_u32.checked_sub(width).filter(|_| width <= 64)?;
        let whole = (bits << unused).cast_signed() >> unused;
        let whole = i64::try_from(whole).ok()?;
        Some(Self::of_whole(whole))
    }

    #[must_use]
    pub fn magnitude(mut self) -> Self {
        self.0[9] &= 0x7f;
        self
    }

    #[must_use]
    pub fn negated(mut self) -> Self {
        self.0[9] ^= 0x80;
        self
    }

    #[must_use]
    pub fn is_nan(self) -> bool {
        self.compared(self).is_none()
    }

    /// Whether two numbers are the same to the bit, where all NaNs are
    /// one.
    #[must_use]
    pub fn is_same(self, other: Self) -> bool {
        self == other || self.is_nan() && other.is_nan()
    }
}

#[cfg(test)]
mod tests {
    use super::Extended;
    use std::cmp::Ordering;

    fn number(number: f64) -> Extended {
        Extended::of_pattern(number.to_bits().into(), 64).expect("64 bits")
    }

    #[test]
    fn operands_stand_in_their_order() {
        let (five, two) = (number(5.0), number(2.0));
        assert_eq!(five.plus(two), number(7.0));
        assert_eq!(five.minus(two), number(3.0));
        assert_eq!(five.times(two), number(10.0));
        assert_eq!(five.over(two), number(2.5));
        assert_eq!(five.compared(two), Some(Ordering::Greater));
        assert_eq!(two.compared(five), Some(Ordering::Less));
        assert_eq!(two.compared(two), Some(Ordering::Equal));
        assert_eq!(two.compared(number(f64::NAN)), None);
    }

    #[test]
    fn arithmetic_has_64_bits() {
        let third = number(1.0).over(number(3.0));
        assert_eq!(third.0, [0xab, 170, 170, 170, 170, 170, 170, 170, 0xfd, 63]);
        assert_eq!(third.pattern(64), Some((1.0_f64 / 3.0).to_bits().into()));
        assert_eq!(third.pattern(32), Some((1.0_f32 / 3.0).to_bits().into()));
    }

    #[test]
    fn roundings() {
        for (from, nearest, toward_zero) in [(2.5, 2.0, 2.0), (-3.7, -4.0, -3.0), (0.9, 1.0, 0.0)] {
            assert_eq!(number(from).rounded(), number(nearest));
            assert_eq!(number(from).truncated(), number(toward_zero));
        }
        assert_eq!(number(-2.5).integer(16), Some(0xfffe));
        assert_eq!(number(1e20).integer(32), Some(0x8000_0000));
        assert_eq!(Extended::of_integer(0xffff, 16), Some(number(-1.0)));
        assert_eq!(number(9.0).root(), number(3.0));
        assert_eq!(number(-0.0).magnitude(), number(0.0));
        assert_eq!(number(0.0).negated(), number(-0.0));
    }

    #[test]
    fn zeros_are_told_apart_and_nans_are_not() {
        assert!(!number(0.0).is_same(number(-0.0)));
        assert!(number(f64::NAN).is_same(number(-f64::NAN)));
    }
}
