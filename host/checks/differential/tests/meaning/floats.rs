//! Patterns and images of 64-bit floats.

/// Bits of an extended pattern's exponent and fraction, and the bias.
const EXPONENT: u128 = 0x7fff;
const FRACTION: u32 = 63;
const BIAS: i32 = 16_383;

/// Whether two floats are the same, where all NaNs are one.
pub fn same(a: f64, b: f64) -> bool {
    a.is_nan() && b.is_nan() || a.to_bits() == b.to_bits()
}

/// The 79-bit pattern of a number.
pub fn pattern(number: f64) -> u128 {
    let sign = u128::from(number.is_sign_negative()) << 78;
    if number.is_nan() {
        return EXPONENT << FRACTION | 1 << 62;
    }
    if number.is_infinite() {
        return sign | EXPONENT << FRACTION;
    }
    if number == 0.0 {
        return sign;
    }
    let bits = number.to_bits();
    let (exponent, fraction) = (bits >> 52 & 0x7ff, bits & ((1 << 52) - 1));
    let (significand, power) = match i32::try_from(exponent).expect("11 bits") {
        0 => (fraction, -1074),
        exponent => (fraction | 1 << 52, exponent - 1075),
    };
    let shift = significand.leading_zeros();
    let exponent = u128::try_from(power + 63 - shift.cast_signed() + BIAS).expect("positive");
    let fraction = u128::from(significand << shift) & ((1 << FRACTION) - 1);
    sign | exponent << FRACTION | fraction
}

/// The number of a pattern of 32, 64 or 79 bits, or of an image of 80.
pub fn decoded(bits: u128, width: u64) -> f64 {
    match width {
        32 => f32::from_bits(u32::try_from(bits).expect("32 bits")).into(),
        64 => f64::from_bits(u64::try_from(bits).expect("64 bits")),
        79 => extended(bits),
        80 => extended(bits >> 1 & !((1 << FRACTION) - 1) | bits & ((1 << FRACTION) - 1)),
        _ => panic!("no float has {width} bits"),
    }
}

/// The number of a 79-bit pattern that some 64-bit float has.
fn extended(pattern: u128) -> f64 {
    let fraction = pattern & ((1 << FRACTION) - 1);
    let exponent = pattern >> FRACTION & EXPONENT;
    let sign = if pattern >> 78 & 1 == 1 { -1.0 } else { 1.0 };
    if exponent == EXPONENT {
        return if fraction == 0 {
            sign * f64::INFINITY
        } else {
            f64::NAN
        };
    }
    if exponent == 0 {
        return sign * 0.0;
    }
    let significand = fraction | 1 << FRACTION;
    let zeros = significand.trailing_zeros();
    let power = i32::try_from(exponent).expect("15 bits") - BIAS - 63 + zeros.cast_signed();
    // An odd number of at most 53 bits, scaled in two exact steps.
    #[allow(clippy::cast_precision_loss)]
    let odd = (significand >> zeros) as f64;
    sign * odd * 2f64.powi(power / 2) * 2f64.powi(power - power / 2)
}

/// The 80-bit image of a number.
pub fn image(number: f64) -> u128 {
    let pattern = pattern(number);
    let exponent = pattern >> FRACTION;
    let integer = u128::from(exponent & EXPONENT != 0);
    (exponent << 1 | integer) << FRACTION | pattern & ((1 << FRACTION) - 1)
}

/// A number as a signed integer of so many bits, which it may not fit.
pub fn integer(number: f64, width: u64) -> u128 {
    #[allow(clippy::cast_possible_truncation)]
    let whole = i128::from(number as i64);
    whole.cast_unsigned() & ((1 << width) - 1)
}

/// The number that a signed integer of so many bits is.
pub fn from_integer(bits: u128, width: u64) -> f64 {
    let unused = 128 - u32::try_from(width).expect("a width");
    #[allow(clippy::cast_precision_loss)]
    let number = ((bits << unused).cast_signed() >> unused) as f64;
    number
}
