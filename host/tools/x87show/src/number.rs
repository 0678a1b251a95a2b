//! Constants that are patterns of floats.

use sleetgate::Format;

/// Bits of the exponent and of the fraction.
fn fields(format: Format) -> (u32, u32) {
    match format {
        Format::Single => (8, 23),
        Format::Double => (11, 52),
        Format::Extended => (15, 63),
    }
}

/// The number of a pattern: in decimal digits where a 64-bit float is
/// that number, else as a whole significand times a power of two.
pub fn text(pattern: u128, format: Format) -> String {
    let (exponent_bits, fraction_bits) = fields(format);
    let mask = |bits: u32| (1u128 << bits) - 1;
    let fraction = pattern & mask(fraction_bits);
    let exponent = pattern >> fraction_bits & mask(exponent_bits);
    let sign = if pattern >> (fraction_bits + exponent_bits) & 1 == 1 {
        "-"
    } else {
        ""
    };
    if exponent == mask(exponent_bits) {
        let name = if fraction == 0 { "inf" } else { "nan" };
        return format!("{sign}{name}");
    }
    let (significand, exponent) = if exponent == 0 {
        (fraction, 1)
    } else {
        (fraction | 1 << fraction_bits, exponent)
    };
    if significand == 0 {
        return format!("{sign}0.0");
    }
    let bias = (1i64 << (exponent_bits - 1)) - 1;
    let exponent = i64::try_from(exponent).unwrap_or_default();
    let power = exponent - bias - i64::from(fraction_bits);
    format!("{sign}{}", magnitude(significand, power))
}

/// A significand times a power of two.
fn magnitude(significand: u128, power: i64) -> String {
    let zeros = significand.trailing_zeros();
    let (odd, power) = (significand >> zeros, power + i64::from(zeros));
    match exact(odd, power) {
        Some(number) => format!("{number:?}"),
        None => format!("{odd}*2^{power}"),
    }
}

/// The normal 64-bit float that is exactly this number, if there is one.
fn exact(odd: u128, power: i64) -> Option<f64> {
    let width = 128 - odd.leading_zeros();
    let biased = u64::try_from(power + i64::from(width) + 1022).ok()?;
    if width > 53 || !(1..=2046).contains(&biased) {
        return None;
    }
    let significand = u64::try_from(odd << (53 - width)).ok()?;
    Some(f64::from_bits(biased << 52 | significand & ((1 << 52) - 1)))
}

#[cfg(test)]
mod tests {
    use super::text;
    use sleetgate::Format::{Double, Extended, Single};

    #[test]
    fn numbers_are_decimal_where_that_is_exact() {
        assert_eq!(text(0x1fff_8000_0000_0000_0000, Extended), "1.0");
        assert_eq!(text(0, Extended), "0.0");
        assert_eq!(text(1 << 78, Extended), "-0.0");
        assert_eq!(text(0x3fff_8000_0000_0000_0000, Extended), "inf");
        assert_eq!(text(0x3fff_c000_0000_0000_0000, Extended), "nan");
        assert_eq!(
            text(0x1fff_8000_0000_0000_0001, Extended),
            "9223372036854775809*2^-63"
        );
        assert_eq!(text(1, Extended), "1*2^-16445");
        for number in [0.1f64, -2.5, 1e300, 1e-300, 5.0, f64::MAX] {
            assert_eq!(text(number.to_bits().into(), Double), format!("{number:?}"));
        }
        for number in [0.5f32, -0.25, 1e10, f32::MAX] {
            let expected = format!("{:?}", f64::from(number));
            assert_eq!(text(number.to_bits().into(), Single), expected);
        }
        assert_eq!(text(1, Double), "1*2^-1074");
    }
}
