//! What is compared: the calls on numbers and slices.

use plain::smt::{self, Read};
use plain::state::{ROW, room};
use plain::{MODELLED, NO_NODES, NO_TEXT, TOO_SHORT};
use sleetgate_sys::untested;

/// The calls that read and lift.
pub trait Subject {
    fn classify(&self, flat: &[u8], out: &mut [u64]) -> u32;
    fn why(&self, flat: &[u8], out: &mut [u64]) -> u32;
    fn effect(&self, flat: &[u8], out: &mut [u64]) -> u32;
    fn read_record(&self, input: &[u8], at: usize, flat: &mut [u8], out: &mut [u64]) -> u32;
    fn lift(
        &self,
        flat: &[u8],
        state: &mut [u64],
        nodes: &mut [u64],
        statements: &mut [u64],
        out: &mut [u64],
    ) -> u32;
}

/// The call that reads and lifts at once.
pub trait RecordLifter: Subject {
    fn lift_record(
        &self,
        input: &[u8],
        at: usize,
        state: &mut [u64],
        nodes: &mut [u64],
        statements: &mut [u64],
        out: &mut [u64],
    ) -> u32;
}

/// The calls on images.
pub trait Images {
    fn image_read(&self, image: &[u8], low: u64, high: u64, out: &mut [u64]) -> u32;
    fn image_write(&self, image: &mut [u8], low: u64, high: u64) -> u32;
}

/// The calls on lists of nodes.
pub trait Formulas {
    fn check(&self, nodes: &[u64], count: usize, out: &mut [u64]) -> u32;
    fn evaluate(
        &self,
        nodes: &[u64],
        count: usize,
        given: &[u64],
        column: &mut [u64],
        out: &mut [u64],
    ) -> u32;
}

/// The calls that write formulas as text and read them.
pub trait Texts {
    fn smt_write(
        &self,
        nodes: &[u64],
        count: usize,
        root: usize,
        text: &mut [u8],
        out: &mut [u64],
    ) -> u32;
    fn smt_read(&self, text: &[u8], nodes: &mut [u64], out: &mut [u64]) -> u32;
}

/// The static library itself, on any slices.
pub struct Library;

impl Subject for Library {
    fn classify(&self, flat: &[u8], out: &mut [u64]) -> u32 {
        untested::classify(flat, out)
    }

    fn why(&self, flat: &[u8], out: &mut [u64]) -> u32 {
        untested::why(flat, out)
    }

    fn effect(&self, flat: &[u8], out: &mut [u64]) -> u32 {
        untested::effect(flat, out)
    }

    fn read_record(&self, input: &[u8], at: usize, flat: &mut [u8], out: &mut [u64]) -> u32 {
        untested::read_record(input, at, flat, out)
    }

    fn lift(
        &self,
        flat: &[u8],
        state: &mut [u64],
        nodes: &mut [u64],
        statements: &mut [u64],
        out: &mut [u64],
    ) -> u32 {
        untested::lift(flat, state, nodes, statements, out)
    }
}

impl RecordLifter for Library {
    fn lift_record(
        &self,
        input: &[u8],
        at: usize,
        state: &mut [u64],
        nodes: &mut [u64],
        statements: &mut [u64],
        out: &mut [u64],
    ) -> u32 {
        untested::lift_record(input, at, state, nodes, statements, out)
    }
}

impl Images for Library {
    fn image_read(&self, image: &[u8], low: u64, high: u64, out: &mut [u64]) -> u32 {
        untested::image_read(image, low, high, out)
    }

    fn image_write(&self, image: &mut [u8], low: u64, high: u64) -> u32 {
        untested::image_write(image, low, high)
    }
}

impl Formulas for Library {
    fn check(&self, nodes: &[u64], count: usize, out: &mut [u64]) -> u32 {
        untested::check(nodes, count, out)
    }

    fn evaluate(
        &self,
        nodes: &[u64],
        count: usize,
        given: &[u64],
        column: &mut [u64],
        out: &mut [u64],
    ) -> u32 {
        untested::evaluate(nodes, count, given, column, out)
    }
}

impl Texts for Library {
    fn smt_write(
        &self,
        nodes: &[u64],
        count: usize,
        root: usize,
        text: &mut [u8],
        out: &mut [u64],
    ) -> u32 {
        untested::smt_write(nodes, count, root, text, out)
    }

    fn smt_read(&self, text: &[u8], nodes: &mut [u64], out: &mut [u64]) -> u32 {
        untested::smt_read(text, nodes, out)
    }
}

/// The peer that is written in C, on any slices.
pub struct Peer;

impl Formulas for Peer {
    fn check(&self, nodes: &[u64], count: usize, out: &mut [u64]) -> u32 {
        peer::check(nodes, count, out)
    }

    fn evaluate(
        &self,
        nodes: &[u64],
        count: usize,
        given: &[u64],
        column: &mut [u64],
        out: &mut [u64],
    ) -> u32 {
        peer::evaluate(nodes, count, given, column, out)
    }
}

/// The rules of texts said plainly, as calls: what is expected of the
/// library.
pub struct Plain;

impl Texts for Plain {
    fn smt_write(
        &self,
        nodes: &[u64],
        count: usize,
        root: usize,
        text: &mut [u8],
        out: &mut [u64],
    ) -> u32 {
        let Some(told) = out.first_mut() else {
            return TOO_SHORT;
        };
        match smt::write(nodes, count, root, text.len()) {
            Ok(written) => {
                text[..written.len()].copy_from_slice(written.as_bytes());
                *told = written.len() as u64;
                MODELLED
            }
            Err(verdict) => {
                *told = verdict.node;
                verdict.number
            }
        }
    }

    fn smt_read(&self, text: &[u8], nodes: &mut [u64], out: &mut [u64]) -> u32 {
        let Some(told) = out.first_mut() else {
            return TOO_SHORT;
        };
        let rooms = usize::try_from(room(nodes.len())).expect("at most 65,535");
        let (number, word) = match smt::read(text, rooms) {
            Read::Stop(place) => (NO_TEXT, place),
            Read::TooFew => (NO_NODES, 0),
            Read::Rows(rows) => {
                nodes[..rows.len() * ROW].copy_from_slice(&rows.concat());
                (MODELLED, rows.len())
            }
        };
        *told = word as u64;
        number
    }
}
