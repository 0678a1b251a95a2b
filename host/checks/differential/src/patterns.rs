//! Random values: floats of every class, and bits that are often such
//! floats.

use plain::sorts::{Format, Sort};

use crate::rng::Rng;

/// How many values are remembered, so that equal and neighbouring ones
/// meet in a comparison.
const REMEMBERED: usize = 8;

/// Makes values, and remembers some.
#[derive(Debug, Clone, Default)]
pub struct Patterns {
    recent: Vec<(Format, u128)>,
}

impl Patterns {
    /// A value of a sort. Bits as wide as a pattern are mostly a float.
    pub fn of_sort(&mut self, rng: &mut Rng, sort: Sort) -> u128 {
        match sort {
            Sort::Float(format) => self.float(rng, format),
            Sort::Bits(width) => {
                let format = Format::ALL.into_iter().find(|f| f.width() == width);
                match format {
                    Some(format) if !rng.one_in(4) => self.float(rng, format),
                    _ => bits(rng, width),
                }
            }
        }
    }

    /// A pattern of a format, often a neighbour of an earlier one.
    pub fn float(&mut self, rng: &mut Rng, format: Format) -> u128 {
        let alike = self.recent.iter().filter(|(f, _)| *f == format);
        let alike: Vec<u128> = alike.map(|(_, pattern)| *pattern).collect();
        let pattern = if alike.is_empty() || rng.one_in(2) {
            fresh(rng, format)
        } else {
            let near = *rng.pick(&alike);
            neighbour(rng, format, near)
        };
        if self.recent.len() == REMEMBERED {
            self.recent.remove(0);
        }
        self.recent.push((format, pattern));
        pattern
    }
}

/// All ones, `width` of them.
#[must_use]
pub fn ones(width: u64) -> u128 {
    (1 << width) - 1
}

/// Random bits of a width: any, few, all ones, or one bit.
pub fn bits(rng: &mut Rng, width: u64) -> u128 {
    let any = wide(rng) & ones(width);
    match rng.below(6) {
        0 => any & 3,
        1 => ones(width) - (any & 1),
        2 => 1 << (any % u128::from(width)),
        _ => any,
    }
}

fn wide(rng: &mut Rng) -> u128 {
    u128::from(rng.word()) << 64 | u128::from(rng.word())
}

/// A pattern of a random class and sign.
fn fresh(rng: &mut Rng, format: Format) -> u128 {
    let fraction = u64::from(format.significand - 1);
    let highest = ones(format.exponent.into());
    let any = wide(rng);
    let (exponent, fraction_bits) = match rng.below(8) {
        0 => (0, 0),
        1 => (0, part(rng, fraction)),
        2 => (highest, 0),
        3 => (highest, part(rng, fraction)),
        4 => (1 + any % 2 * (highest - 2), part(rng, fraction)),
        5 => (highest >> 1, part(rng, fraction)),
        _ => (any % (highest + 1), wide(rng) & ones(fraction)),
    };
    let sign = u128::from(rng.one_in(2));
    (sign << format.exponent | exponent) << fraction | fraction_bits
}

/// Fraction bits, often at a limit: none, one, all, the top one alone.
pub fn part(rng: &mut Rng, width: u64) -> u128 {
    match rng.below(6) {
        0 => 0,
        1 => 1,
        2 => ones(width),
        3 => 1 << (width - 1),
        4 => (1 << (width - 1)) | 1,
        _ => wide(rng) & ones(width),
    }
}

/// The same pattern, its negation, or the next one up or down.
fn neighbour(rng: &mut Rng, format: Format, pattern: u128) -> u128 {
    let all = ones(format.width());
    match rng.below(4) {
        0 => pattern,
        1 => pattern ^ (all / 2 + 1),
        2 => pattern.wrapping_add(1) & all,
        _ => pattern.wrapping_sub(1) & all,
    }
}

#[cfg(test)]
mod tests {
    use super::{Patterns, ones};
    use crate::rng::Rng;
    use plain::sorts::{Format, Sort};
    use std::num::FpCategory;

    #[test]
    fn every_class_of_floats_is_frequent() {
        let mut rng = Rng::new(1);
        let mut patterns = Patterns::default();
        let mut counts = [0; 5];
        for _ in 0..1_000 {
            let pattern = patterns.float(&mut rng, Format::DOUBLE);
            let bits = u64::try_from(pattern).expect("64 bits");
            counts[match f64::from_bits(bits).classify() {
                FpCategory::Nan => 0,
                FpCategory::Infinite => 1,
                FpCategory::Zero => 2,
                FpCategory::Subnormal => 3,
                FpCategory::Normal => 4,
            }] += 1;
        }
        assert!(counts.iter().all(|&count| count > 60), "{counts:?}");
    }

    #[test]
    fn values_fit_their_sorts() {
        let mut rng = Rng::new(1);
        let mut patterns = Patterns::default();
        for width in (1..=80).cycle().take(8_000) {
            let value = patterns.of_sort(&mut rng, Sort::Bits(width));
            assert!(value <= ones(width));
        }
        for format in Format::ALL.into_iter().cycle().take(3_000) {
            let value = patterns.of_sort(&mut rng, Sort::Float(format));
            assert!(value <= ones(format.width()));
        }
    }
}
