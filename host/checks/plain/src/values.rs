//! Given values: which nodes take one, which are too wide, and how a
//! float is held.

use crate::TOO_WIDE;
use crate::sorts::{Format, Sort, Verdict, sorts};
use crate::state::ROW;

/// Words of a value in a column, low first.
pub const VALUE: usize = 2;

/// Whether nodes of this kind take their value from the given column.
#[must_use]
pub fn takes_given(kind: u64) -> bool {
    matches!(kind, 1..=5 | 16..=19 | 23 | 24 | 27..=29)
}

/// The value of a node in a column.
#[must_use]
pub fn value(column: &[u64], node: usize) -> u128 {
    let at = node * VALUE;
    u128::from(column[at + 1]) << 64 | u128::from(column[at])
}

/// The words of a value.
#[must_use]
pub fn words(value: u128) -> [u64; VALUE] {
    [value, value >> 64].map(|part| u64::try_from(part & u128::from(u64::MAX)).expect("64 bits"))
}

/// A pattern as it is held: every NaN has sign 0, exponent all ones and
/// the top fraction bit only.
#[must_use]
pub fn held(format: Format, pattern: u128) -> u128 {
    if is_nan(format, pattern) {
        nan(format)
    } else {
        pattern
    }
}

/// Bits of a format's fraction.
fn fraction(format: Format) -> u32 {
    format.significand - 1
}

/// The exponent's bits, all ones.
fn infinity(format: Format) -> u128 {
    ((1 << format.exponent) - 1) << fraction(format)
}

fn is_nan(format: Format, pattern: u128) -> bool {
    let magnitude = pattern & (infinity(format) | ((1 << fraction(format)) - 1));
    magnitude > infinity(format)
}

/// The one NaN that is held.
#[must_use]
pub fn nan(format: Format) -> u128 {
    infinity(format) | 1 << (fraction(format) - 1)
}

/// The sorts of the nodes of a call that is not refused.
///
/// # Errors
/// 10 where the count is over the room or a column, of which `written`
/// words are lent to be filled, has no two words for each counted node;
/// 8 with the first node that has no sort; 9 with the first whose given
/// value does not fit.
pub fn evaluable(
    nodes: &[u64],
    count: usize,
    given: &[u64],
    written: usize,
) -> Result<Vec<Sort>, Verdict> {
    let columns = (given.len() / VALUE).min(written / VALUE);
    if count > columns {
        return Err(Verdict::SHORT);
    }
    let sorts = sorts(nodes, count)?;
    let kinds = nodes.chunks_exact(ROW).map(|row| row[0]);
    for (node, (kind, sort)) in kinds.zip(&sorts).enumerate() {
        if takes_given(kind) && value(given, node) >> sort.width() != 0 {
            return Err(Verdict::new(TOO_WIDE, node as u64));
        }
    }
    Ok(sorts)
}

#[cfg(test)]
mod tests {
    use super::{evaluable, held, nan};
    use crate::sorts::{Format, Sort, Verdict};

    #[test]
    fn every_nan_is_held_as_one() {
        assert_eq!(nan(Format::SINGLE), u128::from(f32::NAN.to_bits()));
        assert_eq!(nan(Format::DOUBLE), u128::from(f64::NAN.to_bits()));
        assert_eq!(nan(Format::EXTENDED), 0x3fff_c000_0000_0000_0000);
        for (pattern, expected) in [
            (0xff80_0001, 0x7fc0_0000),
            (0xff80_0000, 0xff80_0000),
            (0x8000_0000, 0x8000_0000),
            (0x7fff_ffff, 0x7fc0_0000),
        ] {
            assert_eq!(held(Format::SINGLE, pattern), expected);
        }
    }

    #[test]
    fn refusals_in_their_order() {
        let nodes = [2, 0, 16, 0, 6, 1, 0, 1, 5, 2, 0, 0];
        let good = [0xffff, 0, 9, 9, 1, 0];
        let sorts = [16, 1, 1].map(Sort::Bits).to_vec();
        assert_eq!(evaluable(&nodes, 3, &good, 6), Ok(sorts));
        for (at, node) in [(0, 0), (1, 0), (4, 2), (5, 2)] {
            let mut wide = good;
            wide[at] = 0x1_0000;
            let expected = Err(Verdict::new(9, node));
            assert_eq!(evaluable(&nodes, 3, &wide, 6), expected);
        }
        let wide = [u64::MAX; 6];
        assert_eq!(evaluable(&nodes, 3, &wide, 5), Err(Verdict::SHORT));
        assert_eq!(evaluable(&nodes, 3, &wide[1..], 6), Err(Verdict::SHORT));
        assert_eq!(evaluable(&nodes[1..], 3, &wide, 6), Err(Verdict::SHORT));
        let mut bad = nodes;
        bad[8] = 0;
        assert_eq!(evaluable(&bad, 3, &wide, 6), Err(Verdict::new(8, 2)));
    }
}
