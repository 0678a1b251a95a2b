//! Compiled functions: what the shown text says, beside what the machine
//! does.
//!
//! The functions of `code/` are compiled by `gcc -m32 -mfpmath=387`,
//! disassembled by `objdump -d -M intel` and run on random arguments, one
//! instruction at a time ([`machine`], `code/harness.c`). The way that a
//! run took ([`way`]) is followed by `x87rec`, lifted by `x87lift` and
//! shown by `x87show`; the text is read from top to bottom and evaluated
//! in the processor's own 80-bit arithmetic ([`reading`], [`formula`],
//! [`extended`]), and compared with what the machine did.
//!
//! Assembly is run likewise: what `x87rec` believes of integer instructions
//! ([`integer`]) and of random code ([`mixed`]) is told by its notes where
//! x87 code names registers, flags and places ([`probed`]), and held against
//! what the processor does ([`belief`]); [`needless`] is what it gives up
//! without need.
//!
//! `stored/` has disassemblies and a few recorded runs of each function,
//! for machines where gcc makes no 32-bit code, or where such code does not
//! run. `cargo run --offline -p compiled --bin store` writes them again.

pub mod belief;
pub mod beside;
pub mod check;
pub mod code;
pub mod extended;
pub mod formula;
pub mod functions;
pub mod gcc;
pub mod inputs;
pub mod integer;
pub mod machine;
pub mod mixed;
pub mod needless;
pub mod place;
pub mod probed;
pub mod reading;
pub mod run;
pub mod stored;
pub mod way;
