//! Universes that are small enough to list every text of them.

use std::ops::{Range, RangeInclusive};

use crate::smt::Universe;
use crate::sorts::Format;

const SINGLE: Format = Format::SINGLE;
const DOUBLE: Format = Format::DOUBLE;
const EXTENDED: Format = Format::EXTENDED;

/// A universe of these nodes, kinds, widths of defined nodes and formats,
/// with one choice for everything else.
fn small(nodes: Range<u64>, kinds: &[u64], widths: &[u64], formats: &[Format]) -> Universe {
    Universe {
        nodes,
        kinds: kinds.to_vec(),
        numbers: 0..=0,
        flags: vec![2],
        inputs: vec![79],
        variables: vec![80],
        widths: widths.to_vec(),
        integers: vec![16],
        digits: vec![b'0'],
        formats: formats.to_vec(),
        roundings: vec![0],
    }
}

/// Variables alone, of these numbers and of every width.
fn variables(numbers: RangeInclusive<u64>) -> Universe {
    Universe {
        numbers,
        flags: vec![0, 1, 2],
        inputs: vec![16, 79],
        variables: vec![16, 32, 64, 80],
        ..small(0..2, &[1, 2, 3, 4, 5, 6], &[1], &[])
    }
}

/// A universe, and what it is for.
type Named = (&'static str, Universe);

/// The universes.
#[must_use]
pub fn universes() -> Vec<Named> {
    let parts = [owing(), arithmetic(), bits()];
    parts.into_iter().flatten().collect()
}

/// Nodes of kind 26, of which floats are owed.
fn owing() -> Vec<Named> {
    let both = [SINGLE, EXTENDED];
    let few = [5, 6, 25, 26, 29];
    let with_integers = [4, 6, 25, 26, 28, 29];
    let with_slots = [3, 6, 25, 26, 28, 29];
    let slots = small(0..5, &with_slots, &[64, 79], &[DOUBLE, EXTENDED]);
    let slots = Universe {
        variables: vec![32, 64],
        ..slots
    };
    vec![
        ("owed floats", small(0..6, &few, &[32, 79], &both)),
        ("formats", small(0..5, &few, &[32, 64, 79], &Format::ALL)),
        (
            "integers",
            small(0..5, &with_integers, &[16, 79, 32], &both),
        ),
        ("slots", slots),
        ("two digits", small(7..12, &few, &[1, 32, 79], &both)),
    ]
}

fn arithmetic() -> Vec<Named> {
    let many = [1, 2, 5, 6, 7, 9, 13, 14, 15, 16, 22, 25, 26, 27, 28, 29];
    let all: Vec<u64> = (16..=29).filter(|&kind| kind != 26).chain([5, 6]).collect();
    let rounded = |universe| Universe {
        roundings: vec![0, 1],
        integers: vec![16, 32, 64],
        ..universe
    };
    let widths = [1, 16, 32, 64, 79];
    vec![
        (
            "many kinds",
            small(0..3, &many, &[1, 16, 32, 79], &[SINGLE, EXTENDED]),
        ),
        (
            "arithmetic",
            rounded(small(0..5, &all, &[1, 32], &[SINGLE])),
        ),
        (
            "conversions",
            rounded(small(0..3, &all, &widths, &Format::ALL)),
        ),
    ]
}

fn bits() -> Vec<Named> {
    let truths = [5, 6, 7, 8, 9, 10, 11, 12, 13];
    let digits = Universe {
        digits: vec![b'0', b'1'],
        ..small(0..3, &[5, 6, 7, 15], &[1, 2, 3], &[])
    };
    vec![
        ("truths", small(0..4, &truths, &[1, 2], &[])),
        ("parts", small(0..3, &[2, 5, 6, 14, 15], &[1, 2, 12], &[])),
        ("digits", digits),
        ("variables", variables(8..=11)),
        ("large numbers", variables(u64::MAX - 2..=u64::MAX)),
    ]
}
