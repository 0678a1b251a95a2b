//! What lists the texts are of.

use std::ops::{Range, RangeInclusive};

use crate::sorts::{Format, WIDEST};

/// What the nodes of a list may be: all that the manual allows, or less, so
/// that every text can be listed and compared with what the reader says.
///
/// A universe has one of the kinds 1 to 5, and constants; where it has
/// `FpToIeeeBv`, constants as wide as the patterns of its formats, and
/// `BvToFp` and `FpToFp`. So what is left to be defined can always be.
#[derive(Debug, Clone)]
pub struct Universe {
    /// Numbers of nodes that can be marked.
    pub nodes: Range<u64>,
    pub kinds: Vec<u64>,
    /// Numbers of inputs, temporaries and slots.
    pub numbers: RangeInclusive<u64>,
    pub flags: Vec<u64>,
    /// Widths of inputs.
    pub inputs: Vec<u64>,
    /// Widths of temporaries and slots.
    pub variables: Vec<u64>,
    /// Widths of nodes that are defined.
    pub widths: Vec<u64>,
    /// Widths of floats as signed integers.
    pub integers: Vec<u64>,
    /// Digits of constants.
    pub digits: Vec<u8>,
    pub formats: Vec<Format>,
    pub roundings: Vec<u64>,
}

impl Default for Universe {
    /// All that the manual allows.
    fn default() -> Self {
        Self {
            nodes: 0..65_535,
            kinds: (1..=29).collect(),
            numbers: 0..=u64::MAX,
            flags: vec![0, 1, 2],
            inputs: vec![16, 79],
            variables: vec![16, 32, 64, 80],
            widths: (1..=WIDEST).collect(),
            integers: vec![16, 32, 64],
            digits: vec![b'0', b'1'],
            formats: Format::ALL.to_vec(),
            roundings: vec![0, 1],
        }
    }
}

impl Universe {
    pub(super) fn has(&self, kind: u64) -> bool {
        self.kinds.contains(&kind)
    }
}
