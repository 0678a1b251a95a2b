//! The lift of each record, made again by the proved library: which nodes
//! and statements each one added, and the stack behind it.

use std::ops::Range;

use notes::Notes;
use sleetgate::{Instruction, Item, Lifted, Lifter, Refusal, read_record};

use crate::Wrong;
use crate::listing::{Listing, NODES, STATEMENTS};

/// What a record did.
#[derive(Debug, Clone, PartialEq, Eq)]
pub struct Span {
    pub address: u64,
    /// The record's instruction.
    pub insn: Instruction,
    pub nodes: Range<usize>,
    pub statements: Range<usize>,
    /// The stack behind it, the top first.
    pub stack: Vec<u64>,
    /// Whether the lifter declined it, and so forgot the stack.
    pub declined: bool,
    /// Whether it loads an 80-bit image, whose input is a free pattern.
    pub loads_image: bool,
}

/// What each record did, up to the one that was refused.
///
/// # Errors
/// Where the notes are not those of the listing.
pub fn trace(notes: &Notes, listing: &Listing) -> Result<Vec<Span>, Wrong> {
    if !sleetgate_sys::at_hand() {
        return Err(Wrong::Step(sleetgate_sys::MISSING.to_owned()));
    }
    let mut lifter = Lifter::with_capacity(NODES, STATEMENTS);
    let mut spans = Vec::new();
    let mut refused = None;
    let mut place = 0;
    for (address, record) in notes.records() {
        match span(&mut lifter, address, &record.bytes)? {
            Ok(span) => spans.push(span),
            Err(refusal) => {
                refused = Some((refusal, place));
                break;
            }
        }
        place += record.bytes.len() as u64;
    }
    let again = Listing {
        nodes: lifter.nodes().iter().collect(),
        statements: lifter.statements().iter().collect(),
        stack: lifter.stack().to_vec(),
        refused,
    };
    if again != *listing {
        let why = "the listing is not that of the records in the names file: run the pipe again";
        return Err(Wrong::Step(why.to_owned()));
    }
    Ok(spans)
}

/// Lift one record.
fn span(lifter: &mut Lifter, address: u64, bytes: &[u8]) -> Result<Result<Span, Refusal>, Wrong> {
    let Ok(Item::Record { insn, .. }) = read_record(bytes, 0) else {
        let why = "the names file has a record that is none";
        return Err(Wrong::Step(why.to_owned()));
    };
    let (nodes, statements) = (lifter.nodes().len(), lifter.statements().len());
    let lifted = match lifter.lift(&insn) {
        Ok(lifted) => lifted,
        Err(refusal) => return Ok(Err(refusal)),
    };
    let image = |operand: &sleetgate::Operand| {
        matches!(operand, sleetgate::Operand::Memory { width: 80, .. })
    };
    Ok(Ok(Span {
        address,
        nodes: nodes..lifter.nodes().len(),
        statements: statements..lifter.statements().len(),
        stack: lifter.stack().to_vec(),
        declined: lifted != Lifted::Modelled,
        loads_image: insn.mnemonic == "fld" && insn.operands.iter().any(image),
        insn,
    }))
}
