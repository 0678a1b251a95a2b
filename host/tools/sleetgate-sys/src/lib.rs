//! Safe binding to the static library of the proved crates.
//!
//! A lent slice passes as a pointer and a length. The library is total:
//! it answers 10 where a slice is too short. The words of `out` are told
//! whenever there is room for them, beside every refusal too, and are 0
//! then, but a node or a place that is named; where they have no room
//! nothing is written. All else that is lent stays as it was beside a
//! refusal. The functions here test the lengths themselves before they
//! call the library; those in [`untested`] hand over any slices as they
//! are, so that the library's own tests can be compared.

/// Bytes of an instruction.
pub const FLAT: usize = 177;
/// Words of a form.
pub const FORM: usize = 8;
/// Answers of an effect.
pub const EFFECT: usize = 7;
/// Words that reading a record gives beside the instruction.
pub const READ: usize = 2;
/// Words that name the detail of a decline.
pub const DETAIL: usize = 1;
/// Words that lifting a record gives.
pub const STEP: usize = 3;
/// Words of a state.
pub const STATE: usize = 13;
/// Bytes of an 80-bit image.
pub const IMAGE: usize = 10;
/// Words of a pattern, and of a value in a column, low first.
pub const VALUE: usize = 2;
/// Words that name a node.
pub const NAMED: usize = 1;
/// Words that tell how long a text is, how many nodes were read, or a node
/// or a place that a refusal names.
pub const TOLD: usize = 1;

/// The answer where a lent slice is too short.
pub const TOO_SHORT: u32 = 10;

/// Whether the library was there when this was built.
#[must_use]
pub fn at_hand() -> bool {
    cfg!(not(no_library))
}

/// Whether the library is run by an emulator.
#[must_use]
pub fn is_emulated() -> bool {
    cfg!(emulated)
}

/// What is said where the library is not there.
#[cfg(target_arch = "x86_64")]
pub const MISSING: &str = "the static library of the proved crates was not there when this was \
                           built; make it by `bash host/tools/library.sh`, then build this \
                           again";

/// What is said where the library is not there, or cannot be run.
#[cfg(not(target_arch = "x86_64"))]
pub const MISSING: &str = "the static library of the proved crates, or what runs code for x86-64, \
                           was not there when this was built; make the library by `bash \
                           host/tools/library.sh`, install the rest by `bash \
                           host/tools/emulator.sh`, then build this again";

/// 10, and zeros for the words that are told, where they have room.
fn too_short(out: &mut [u64], told: usize) -> u32 {
    if let Some(words) = out.get_mut(..told) {
        words.fill(0);
    }
    TOO_SHORT
}

/// Classify the instruction in the first 177 bytes. The first eight words
/// of `out` become the form; words beyond stay.
pub fn classify(flat: &[u8], out: &mut [u64]) -> u32 {
    if flat.len() < FLAT || out.len() < FORM {
        return too_short(out, FORM);
    }
    untested::classify(flat, out)
}

/// Why the instruction in the first 177 bytes is declined: the answer is
/// that of [`classify`], and the first word of `out` becomes the detail, 21
/// to 25 beside 1 and else 0; words beyond stay.
pub fn why(flat: &[u8], out: &mut [u64]) -> u32 {
    if flat.len() < FLAT || out.len() < DETAIL {
        return too_short(out, DETAIL);
    }
    untested::why(flat, out)
}

/// The effect of the instruction in the first 177 bytes. The first seven
/// words of `out` become 0 or 1; words beyond stay.
pub fn effect(flat: &[u8], out: &mut [u64]) -> u32 {
    if flat.len() < FLAT || out.len() < EFFECT {
        return too_short(out, EFFECT);
    }
    untested::effect(flat, out)
}

/// Read one record of `input` at `at`. The first two words of `out`
/// become the next or the offending place, and whether a record was
/// read; the first 177 bytes of `flat` become the instruction then.
pub fn read_record(input: &[u8], at: usize, flat: &mut [u8], out: &mut [u64]) -> u32 {
    if flat.len() < FLAT || out.len() < READ {
        return too_short(out, READ);
    }
    untested::read_record(input, at, flat, out)
}

/// Lift the instruction in the first 177 bytes. The first 13 words of
/// `state` become the next state: eight slots, depth, nodes, statements, inputs,
/// temporaries. The lists are rows of four words. The first word of `out`
/// becomes the detail of a decline, 21 to 25 beside 1 and else 0.
pub fn lift(
    flat: &[u8],
    state: &mut [u64],
    nodes: &mut [u64],
    statements: &mut [u64],
    out: &mut [u64],
) -> u32 {
    if flat.len() < FLAT || state.len() < STATE || out.len() < DETAIL {
        return too_short(out, DETAIL);
    }
    untested::lift(flat, state, nodes, statements, out)
}

/// Read one record of `input` at `at` and lift it, as [`read_record`] and
/// [`lift`] do. The first two words of `out` become the next place and 1,
/// or the offending place (the record's own for a refusal of the lifter)
/// and 0; at the end mark nothing is lifted, and they become the place
/// after it and 0. The third word becomes the detail, as in [`lift`].
pub fn lift_record(
    input: &[u8],
    at: usize,
    state: &mut [u64],
    nodes: &mut [u64],
    statements: &mut [u64],
    out: &mut [u64],
) -> u32 {
    if state.len() < STATE || out.len() < STEP {
        return too_short(out, STEP);
    }
    untested::lift_record(input, at, state, nodes, statements, out)
}

/// Read an image of ten bytes. The first two words of `out` become its
/// pattern, or the free pattern where it has no number.
pub fn image_read(image: &[u8], low: u64, high: u64, out: &mut [u64]) -> u32 {
    if image.len() < IMAGE || out.len() < VALUE {
        return too_short(out, VALUE);
    }
    untested::image_read(image, low, high, out)
}

/// Write the image of a pattern. The first ten bytes of `image` become
/// it.
pub fn image_write(image: &mut [u8], low: u64, high: u64) -> u32 {
    if image.len() < IMAGE {
        return TOO_SHORT;
    }
    untested::image_write(image, low, high)
}

/// Check the sorts of the first `count` nodes. The first word of `out`
/// becomes the first node without a sort, or 0.
pub fn check(nodes: &[u64], count: usize, out: &mut [u64]) -> u32 {
    if out.len() < NAMED {
        return TOO_SHORT;
    }
    untested::check(nodes, count, out)
}

/// Evaluate the first `count` nodes. The first two words of `column` for
/// each of them become the values; the first word of `out` becomes the
/// node that a refusal names, or 0.
pub fn evaluate(
    nodes: &[u64],
    count: usize,
    given: &[u64],
    column: &mut [u64],
    out: &mut [u64],
) -> u32 {
    if out.len() < NAMED {
        return TOO_SHORT;
    }
    untested::evaluate(nodes, count, given, column, out)
}

/// Write what a node of the first `count` needs as SMT-LIB text. The first
/// bytes of `text` become it, and the first word of `out` becomes how many
/// they are; beside a refusal it becomes the node without a sort, or 0.
pub fn smt_write(
    nodes: &[u64],
    count: usize,
    root: usize,
    text: &mut [u8],
    out: &mut [u64],
) -> u32 {
    if out.len() < TOLD {
        return TOO_SHORT;
    }
    untested::smt_write(nodes, count, root, text, out)
}

/// Read SMT-LIB text. The first rows of `nodes` become its nodes, and the
/// first word of `out` becomes how many they are; beside a refusal it becomes
/// the place from which on it is no such text, or 0.
pub fn smt_read(text: &[u8], nodes: &mut [u64], out: &mut [u64]) -> u32 {
    if out.len() < TOLD {
        return TOO_SHORT;
    }
    untested::smt_read(text, nodes, out)
}

#[cfg(not(any(no_library, emulated)))]
#[path = "linked.rs"]
pub mod untested;

#[cfg(emulated)]
#[path = "emulated.rs"]
pub mod untested;

#[cfg(no_library)]
#[path = "missing.rs"]
pub mod untested;
