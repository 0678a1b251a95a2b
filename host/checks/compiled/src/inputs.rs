//! Random arguments.

use differential::rng::Rng;

use crate::extended::Extended;
use crate::functions::{Function, Kind};
use crate::run::{ARENA, ARGUMENTS};

/// Bytes that a pointer points to.
const SPACE: usize = 64;

/// The arena before a run of a function, where it stands at this address.
#[must_use]
pub fn arena(function: &Function, address: u32, rng: &mut Rng) -> [u8; ARENA] {
    let mut arena = [0; ARENA];
    let (mut place, mut space) = (ARGUMENTS, 0);
    for &kind in function.arguments {
        let bytes = argument(kind, address, space, rng);
        arena[place..place + bytes.len()].copy_from_slice(&bytes);
        place += bytes.len();
        if let Some(numbers) = pointed_to(kind, rng) {
            arena[space..space + SPACE].copy_from_slice(&numbers);
            space += SPACE;
        }
    }
    arena
}

/// The bytes of an argument.
fn argument(kind: Kind, address: u32, space: usize, rng: &mut Rng) -> Vec<u8> {
    let pointer = address + u32::try_from(space).expect("a place of the arena");
    match kind {
        Kind::Float => float(rng).to_vec(),
        Kind::Double => double(rng).to_vec(),
        Kind::LongDouble => long_double(rng).to_vec(),
        Kind::Int => int(rng).to_vec(),
        Kind::LongLong => i64::from(i32::from_le_bytes(int(rng)))
            .wrapping_mul(1 << rng.below(33))
            .to_le_bytes()
            .to_vec(),
        Kind::Count => u32::try_from(rng.below(5))
            .unwrap_or(0)
            .to_le_bytes()
            .to_vec(),
        Kind::Floats | Kind::Doubles | Kind::Ints | Kind::Space => pointer.to_le_bytes().to_vec(),
    }
}

/// What a pointer points to.
fn pointed_to(kind: Kind, rng: &mut Rng) -> Option<[u8; SPACE]> {
    let bytes: Vec<u8> = match kind {
        Kind::Floats => (0..SPACE / 4).flat_map(|_| float(rng)).collect(),
        Kind::Doubles => (0..SPACE / 8).flat_map(|_| double(rng)).collect(),
        Kind::Ints => (0..SPACE / 4).flat_map(|_| int(rng)).collect(),
        Kind::Space => vec![0; SPACE],
        _ => return None,
    };
    bytes.try_into().ok()
}

fn int(rng: &mut Rng) -> [u8; 4] {
    let word = rng.word().to_le_bytes();
    match rng.below(3) {
        0 => i32::from(i8::from_le_bytes([word[0]])).to_le_bytes(),
        1 => i32::from(i16::from_le_bytes([word[0], word[1]])).to_le_bytes(),
        _ => [word[0], word[1], word[2], word[3]],
    }
}

/// Mostly a small number with a short fraction, so that two of them are
/// often equal and halves are frequent.
fn small(rng: &mut Rng) -> f64 {
    let whole = f64::from(i8::from_le_bytes([rng.byte()]));
    whole / f64::from(1_u8 << rng.below(8))
}

/// A number that is special in most formats.
fn special(rng: &mut Rng) -> f64 {
    *rng.pick(&[
        0.0,
        -0.0,
        f64::INFINITY,
        f64::NEG_INFINITY,
        f64::NAN,
        1.0,
        0.1,
        1e-40,
        1e30,
        3e9,
        -2_147_483_648.5,
        32_767.5,
    ])
}

fn float(rng: &mut Rng) -> [u8; 4] {
    #[allow(clippy::cast_possible_truncation)]
    match rng.below(8) {
        0 => (special(rng) as f32).to_le_bytes(),
        1 => [rng.byte(), rng.byte(), rng.byte(), rng.byte()],
        _ => (small(rng) as f32).to_le_bytes(),
    }
}

fn double(rng: &mut Rng) -> [u8; 8] {
    match rng.below(8) {
        0 => special(rng).to_le_bytes(),
        1 => rng.word().to_le_bytes(),
        2 => (small(rng) * 0.1).to_le_bytes(),
        _ => small(rng).to_le_bytes(),
    }
}

/// Of twelve bytes: a double, or any significand.
fn long_double(rng: &mut Rng) -> [u8; 12] {
    let mut bytes = [0; 12];
    let ten = if rng.one_in(2) {
        let double = u64::from_le_bytes(double(rng));
        Extended::of_pattern(double.into(), 64).map_or([0; 10], |number| number.0)
    } else {
        image(rng)
    };
    bytes[..10].copy_from_slice(&ten);
    bytes
}

/// Now and then one that is no number.
fn image(rng: &mut Rng) -> [u8; 10] {
    let mut bytes = [0; 10];
    bytes[..8].copy_from_slice(&rng.word().to_le_bytes());
    let exponent = match rng.below(6) {
        0 => *rng.pick(&[0_u16, 0x7fff, 1, 0x7ffe]),
        _ => 0x3ffd + u16::from(rng.byte()) % 70,
    };
    if exponent != 0 && !rng.one_in(8) {
        bytes[7] |= 0x80;
    }
    let sign = u16::from(rng.one_in(2)) << 15;
    bytes[8..].copy_from_slice(&(exponent | sign).to_le_bytes());
    bytes
}
