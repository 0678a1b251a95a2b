//! Disassembled text as records for `x87lift`, with notes for `x87show`.
//!
//! # Which lines become records
//!
//! r2SMT hands an instruction to its x87 lifter only if it is an x87 one
//! (`is_simd_instruction` and the dispatch behind it); integer
//! instructions are lifted elsewhere and leave `LiftCtx::x87` alone, and
//! an instruction that the slicer cannot reason about, a call among them,
//! ends the slice. The same is done here, for a whole text:
//!
//! - An x87 instruction (its name begins with `f`, or is `wait`) is a
//!   record, but for `fldcw` and `fnstcw`, which leave the stack alone:
//!   see below.
//! - An instruction on the list of [`passes`] cannot touch the x87 stack,
//!   and is passed over; the count of each name is reported.
//! - Everything else is a record too: calls, jumps, returns, MMX, bad
//!   bytes, names that nobody knows. The lifter declines it and forgets
//!   the stack, so that nothing is carried across it.
//! - Where another line of the text jumps to an instruction, or a symbol,
//!   a section or skipped zeros stand before it, the stack is not that of
//!   the line above: a record named `entry`, with that instruction's
//!   address, comes first, and the lifter declines it. It is left out
//!   where the record before already forgot the stack.
//!
//! With `every`, nothing is passed over: then only lines that are x87
//! without a break keep their stack.
//!
//! With `path`, one way through the code is followed from its first line
//! on, as r2SMT's slices are: a jump goes on at its target, a conditional
//! one only where it is listed, and the way ends at a return, at a line
//! that it met before, or where it leaves the text; the notes say which.
//! There are no entries then, since the way into each line is known;
//! neither are the jumps and the return records, so that the stack at the
//! end is what the function gives back. The formulas hold for the runs
//! that take this way.
//!
//! # The control word
//!
//! On entry it is taken to round to nearest even with extended precision.
//! What the code does to it is followed ([`Machine`](machine::Machine)):
//! a word that `fnstcw` stored, that `or`, `and`, `xor` or `mov` of
//! constants changed and that `fldcw` loads is known. An instruction whose
//! result depends on the word is lifted only where it rounds to nearest
//! even, and computes with extended precision if it computes; a `fistp`
//! that rounds toward zero is lifted as `fisttp`, which it then is; all
//! others are handed over under a name that the lifter declines, and the
//! notes say why. A word that is loaded from elsewhere, or changed by an
//! instruction or a library function that may do so, is not known.
//!
//! With `assume_reset` none of this is done: `fldcw` and `fnstcw` are
//! records that the lifter declines, and every rounding behind them is
//! taken to be to nearest even.
//!
//! # Flags
//!
//! A flag node names the flag, not its value at that moment. For each
//! instruction that reads a flag or the status word the notes say which
//! instruction wrote it last.
//!
//! # Numbers
//!
//! - Address number: memory operands with the same [place](place::Place)
//!   have the same number, from 1 on in order of appearance. A place is a
//!   sum of registers at the values that they have there, a symbol that
//!   the linker will put in, and a constant; one on the stack is counted
//!   from the stack pointer on entry as long as that is known. An absolute
//!   address that no linker has put in yet is a place of its own at each
//!   instruction.
//! - Slot number: a base `rbp` or `rsp` in any width and one constant, as
//!   r2SMT's `stack_slot` has it, has one number for each place; all else
//!   has none.
//! - Known is what r2SMT's `x86_address_expr` can build: sums of general
//!   registers, scaled or not, and constants, without a segment prefix
//!   and without subtracted registers. objdump writes an absolute address
//!   of 32-bit code as `ds:0x10`, where the code has no prefix; it is read
//!   as `[0x10]`.
//! - Width is that of the size before `PTR`, as in r2SMT's
//!   `memory_operand_width`; 0 where there is none.
//!
//! The top of the stack may be written `st`, and places `st3`; that is
//! `st(0)` and `st(3)`, as r2SMT's disassembler has it. An instruction
//! with more than three operands, which no x87 instruction has, becomes
//! one with a single operand of the kind 'other'; where its name is an x87
//! one, the notes say so.

mod address;
mod control;
mod effects;
mod flow;
mod line;
mod machine;
mod memory;
mod names;
mod operand;
mod passing;
mod path;
mod place;
mod wanted;
mod word;
mod work;

use std::collections::{BTreeMap, BTreeSet};
use std::fmt;

use notes::Notes;
use sleetgate::write_end;

use flow::{Callees, along, through};
use line::Line;
pub use line::hexadecimal;
pub use passing::passes;
pub use path::Take;
use path::Way;
pub use sleetgate::MOST_BYTES;
use work::{From, Work};

/// What is asked for.
#[derive(Debug, Clone, Default)]
pub struct Options {
    /// Whether every instruction becomes a record.
    pub every: bool,
    /// The one function that is wanted, by its symbol or its address.
    pub function: Option<String>,
    /// Whether one way through the code is followed, and the conditional
    /// jumps that are taken on it.
    pub path: Option<Vec<Take>>,
    /// Whether the control word is taken to be the reset one throughout.
    pub assume_reset: bool,
}

/// What is wrong with the text.
#[derive(Debug, Clone, PartialEq, Eq)]
pub struct Wrong {
    /// The line, from 1 on; 0 for the text as a whole.
    pub line: usize,
    pub why: String,
}

impl fmt::Display for Wrong {
    fn fmt(&self, f: &mut fmt::Formatter<'_>) -> fmt::Result {
        match self.line {
            0 => write!(f, "{}", self.why),
            line => write!(f, "line {line}: {}", self.why),
        }
    }
}

impl std::error::Error for Wrong {}

/// The records of a text, and what there is to say of them.
#[derive(Debug, Default)]
pub struct Translated {
    /// The records, and what happens between them.
    pub notes: Notes,
    /// Lines of code.
    pub lines: usize,
    /// Names that were passed over, and how often.
    pub passed: BTreeMap<String, usize>,
    /// Records that stand for an entry.
    pub entries: usize,
}

impl Translated {
    /// The records, and the end mark.
    #[must_use]
    pub fn bytes(&self) -> Vec<u8> {
        let records = self.notes.records();
        let mut bytes: Vec<u8> = records
            .flat_map(|(_, record)| record.bytes.clone())
            .collect();
        write_end(&mut bytes);
        bytes
    }
}

impl fmt::Display for Translated {
    fn fmt(&self, f: &mut fmt::Formatter<'_>) -> fmt::Result {
        write!(
            f,
            "{} instructions, {} records, {} of them for entries",
            self.lines,
            self.notes.records().count(),
            self.entries
        )?;
        let passed: Vec<String> = self
            .passed
            .iter()
            .map(|(name, count)| format!("{name} {count}"))
            .collect();
        if !passed.is_empty() {
            write!(f, "; passed over: {}", passed.join(", "))?;
        }
        Ok(())
    }
}

/// The records of a text.
///
/// # Errors
/// The first line that is not understood; that the wanted function or a
/// jump that is taken is not there; or that `x87lift` does not take so
/// many bytes.
pub fn translate(text: &str, options: &Options) -> Result<Translated, Wrong> {
    let all = line::all(text)?;
    if !all.iter().any(|line| line.code().is_some()) {
        let why = "the text has no instruction: did the step before this one fail?".to_owned();
        return Err(Wrong { line: 0, why });
    }
    let (word, apart) = (stack_word(&all), twice(&all).is_none());
    let told = apart.then(|| Callees::of(&all, word));
    let code = all.iter().filter_map(Line::code);
    let (calls, jumps): (Vec<&line::Code>, Vec<_>) = code.partition(|code| code.is_call());
    let targets = Targets {
        calls: calls.into_iter().filter_map(line::Code::target).collect(),
        jumps: jumps.into_iter().filter_map(line::Code::target).collect(),
    };
    let lines = match &options.function {
        Some(function) => wanted::function(all, function)?,
        None => all,
    };
    if let Some(code) = twice(&lines) {
        let why = format!(
            "{:x} stands there twice: take one function (--function)",
            code.address
        );
        let line = code.line;
        return Err(Wrong { line, why });
    }
    // Where sections begin at the same address, only its own lines tell
    // what a function calls.
    let mut callees = told.unwrap_or_else(|| Callees::of(&lines, word));
    match &options.path {
        Some(takes) => {
            let way = path::follow(lines, takes)?;
            one_way(&way, &mut callees, options)
        }
        None => whole(&lines, &targets, &mut callees, options),
    }
}

/// Where the calls and the jumps of a text go.
struct Targets {
    calls: BTreeSet<u64>,
    jumps: BTreeSet<u64>,
}

impl Targets {
    /// From where a line is come to, besides the one above it.
    fn from(&self, address: u64) -> From {
        if self.jumps.contains(&address) {
            From::Jump
        } else if self.calls.contains(&address) {
            From::Call
        } else {
            From::Above
        }
    }
}

/// The first line whose address an earlier one has.
fn twice(lines: &[Line]) -> Option<&line::Code> {
    let mut met = BTreeSet::new();
    let mut code = lines.iter().filter_map(Line::code);
    code.find(|code| !met.insert(code.address))
}

/// The bytes of an entry on the stack: eight where a line names a register
/// that only 64-bit code has; all of these begin with an `r`.
fn stack_word(lines: &[Line]) -> i64 {
    let long = |word: &str| word.starts_with('r') && names::is_general(word);
    let names_long = |text: &String| {
        let lower = text.to_ascii_lowercase();
        lower.split(|c: char| !c.is_ascii_alphanumeric()).any(long)
    };
    let mut code = lines.iter().filter_map(Line::code);
    if code.any(|code| code.operands.iter().any(names_long)) {
        return 8;
    }
    4
}

/// One way through the code.
fn one_way(way: &Way, callees: &mut Callees, options: &Options) -> Result<Translated, Wrong> {
    let machines = along(&way.steps, callees);
    let code = way.steps.iter().map(|step| &step.code).zip(&machines);
    let mut work = Work::new(options, callees, code);
    for (step, machine) in way.steps.iter().zip(&machines) {
        work.step(step, machine)?;
    }
    work.end(way);
    Ok(work.done("one way through the code: what is shown holds for the runs that take it"))
}

/// All lines of a text in their order.
fn whole(
    lines: &[Line],
    targets: &Targets,
    callees: &mut Callees,
    options: &Options,
) -> Result<Translated, Wrong> {
    let machines = through(lines, callees);
    let code = lines.iter().filter_map(Line::code);
    let code = code.map(|code| (code, &machines[&code.address]));
    let mut work = Work::new(options, callees, code);
    for code in lines.iter().filter_map(Line::code) {
        let from = targets.from(code.address);
        work.line(code, &machines[&code.address], from)?;
    }
    work.off(lines.iter().rev().find_map(Line::code));
    Ok(work.done("all lines in their order: a conditional jump is passed over as not taken"))
}
