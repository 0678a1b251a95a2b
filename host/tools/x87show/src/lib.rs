//! A listing of `x87lift` as formulas that a person can read.
//!
//! With the notes of `x87rec` each line begins with the address of the
//! instruction that it is about. Lines that begin with `--`, behind the
//! address where there is one, are words; all others are formulas. The
//! words at the head say what is assumed.
//!
//! | text | what it says |
//! |---|---|
//! | `m0 := [eax], 32 bits` | temporary 0 is loaded |
//! | `s1 := [esp0+0x8], 64 bits` | slot 1 is loaded; `s1_2` the second time |
//! | `in0` | input 0: what was there before, and nobody knows; words say where |
//! | `[ebx] := f32(a + b)` | a store |
//! | `let t1 = ..` | a part that is used more than once, or is long |
//! | `CF1 := CF, as fcomi at 38 wrote it` | the flag is read here, and who wrote it |
//! | `fsw1 := fsw, as fcom at 20 wrote it` | the status word likewise |
//! | `f32(x)`, `f64(x)` | the float x rounded to 32 or 64 bits |
//! | `f80(x)` | the 80-bit image of x |
//! | `number(m0, in1)` | the number whose 80-bit image is m0; in1 where it is none |
//! | `int(m0)` | the number that the signed integer m0 is |
//! | `i32(x)`, `i32(trunc(x))` | x as a signed integer, rounded to nearest even, or toward zero |
//! | `status(C0: .., C2: .., C3: .., rest: in1)` | the status word, whose other bits are those of in1 and C1 zero |
//!
//! All arithmetic rounds to nearest even in the stack's own format. A
//! value on the stack is the pattern of a float, and is written as that
//! float: a `BvToFp` of an `FpToIeeeBv`, an `FpToIeeeBv` as a whole value,
//! and a widening, which is exact, write nothing. `fabs` and `fchs`, which
//! are done on the pattern, are `abs(x)` and `-x`. Where the bits of a
//! float are really meant, `bits(x)` says so.
//!
//! A number that is NaN or does not fit the integer that it is stored as
//! has no formula: the processor stores the integer indefinite value, the
//! lowest one, and SMT-LIB leaves it open.
//!
//! Where an instruction is declined, words say why; what its name takes is
//! asked of the proved library:
//!
//! | detail | words |
//! |---|---|
//! | 21 | `the lifter does not know the name fprem` |
//! | 22 | `it has 2 operands, and its name takes 0 or 1` |
//! | 23 | `its name does not take eax`, `its name does not take memory as operand 2` |
//! | 24 | `the address of its memory operand is not known` |
//! | 25 | `its memory operand has 64 bits, and its name takes 16 or 32` |
//!
//! Where `x87rec` made the lifter decline it, for example because of the
//! control word, its reason stands there instead. Without notes nothing is
//! known of the instruction but its address, and the words are those of
//! [`Detail`](sleetgate::Detail).
//!
//! A listing does not say which instruction made which node, nor what the
//! stack was in between. So the records in the notes are lifted again by
//! the proved library, and the listing is taken only if it is that lift.

mod build;
mod declined;
mod listing;
mod number;
mod print;
mod terms;
mod trace;

use notes::Notes;
use sleetgate::Refusal;

pub use listing::{Listing, Wrong};

/// A readable text.
#[derive(Debug, Clone, PartialEq, Eq)]
pub struct Shown {
    pub text: String,
    /// Whether the run stopped at a refusal, as the text says.
    pub refused: bool,
}

/// The readable text of a listing, with the notes of its records.
///
/// # Errors
/// The first line that no listing has; or that a step before this one
/// failed, or that the notes are of another run.
pub fn show(listing: &str, notes: Option<&Notes>) -> Result<Shown, Wrong> {
    if let Some(why) = notes.and_then(|notes| notes.failed.as_ref()) {
        return Err(Wrong::Step(format!("x87rec failed: {why}")));
    }
    let listing = Listing::read(listing)?;
    if listing.refused == Some((Refusal::EndsEarly, 0)) {
        let why = "x87lift got no records: the step before it failed";
        return Err(Wrong::Step(why.to_owned()));
    }
    let text = match notes {
        Some(notes) => {
            let spans = trace::trace(notes, &listing)?;
            print::with_notes(&listing, notes, &spans)
        }
        None => print::alone(&listing),
    };
    let refused = listing.refused.is_some();
    Ok(Shown { text, refused })
}
