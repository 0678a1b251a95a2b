//! What classify, why and effect are expected to answer: the refusals by
//! the manual, section 7, the detail of a decline as it is said plainly,
//! all else as the Rust says it.

use plain::{DECLINED, Instruction, MODELLED, REGISTER, TOO_SHORT, refusal};

use crate::oracle;

/// Words that a case may lend.
pub const LENT: usize = 12;

/// What the lent words hold before a call.
pub const BEFORE: [u64; LENT] = {
    let mut words = [0; LENT];
    let mut i = 0;
    while i < LENT {
        words[i] = 0xa5a5_5a5a_0000_0000 + i as u64;
        i += 1;
    }
    words
};

/// A number, and the lent words after the call.
#[derive(Debug, Clone, Copy, PartialEq, Eq)]
pub struct Answer {
    pub number: u32,
    pub words: [u64; LENT],
}

impl Answer {
    /// The number with these words first, and the others as they were.
    fn new(number: u32, first: &[u64]) -> Self {
        let mut words = BEFORE;
        words[..first.len()].copy_from_slice(first);
        Self { number, words }
    }
}

/// What `classify` gives for `flat` with `room` words lent.
#[must_use]
pub fn classify(flat: &[u8], room: usize) -> Answer {
    answer(flat, room, |insn| answered(oracle::classify(insn)))
}

/// What `why` gives for `flat` with `room` words lent: the answer of
/// `classify`, and the detail of a decline.
#[must_use]
pub fn why(flat: &[u8], room: usize) -> Answer {
    answer(flat, room, |insn| match oracle::classify(insn) {
        Some(_) => (MODELLED, [0]),
        None => (DECLINED, [plain::why(insn).into()]),
    })
}

/// What `effect` gives for `flat` with `room` words lent.
#[must_use]
pub fn effect(flat: &[u8], room: usize) -> Answer {
    answer(flat, room, |insn| {
        answered(oracle::effect(insn).map(|flags| flags.map(u64::from)))
    })
}

/// The number of what the oracle says, and its words: zeros where it
/// declines.
fn answered<const N: usize>(said: Option<[u64; N]>) -> (u32, [u64; N]) {
    said.map_or((DECLINED, [0; N]), |words| (MODELLED, words))
}

/// Too short, then refused, then what is said in `N` words, which are 0
/// beside all else that can be told.
fn answer<const N: usize>(
    flat: &[u8],
    room: usize,
    said: impl Fn(&Instruction) -> (u32, [u64; N]),
) -> Answer {
    if room < N {
        return Answer::new(TOO_SHORT, &[]);
    }
    let Some(flat) = flat.first_chunk() else {
        return Answer::new(TOO_SHORT, &[0; N]);
    };
    let insn = Instruction::from_flat(flat);
    if let Some(number) = refusal(&insn) {
        return Answer::new(number, &[0; N]);
    }
    let (number, words) = said(&insn);
    Answer::new(number, &words)
}

/// Whether the effect of an instruction is outside the domain of
/// equality: a status store whose `ax` has blanks around it.
#[must_use]
pub fn blanks_around_ax(flat: &[u8]) -> bool {
    let Some(flat) = flat.first_chunk() else {
        return false;
    };
    let insn = Instruction::from_flat(flat);
    let name = insn.mnemonic.as_read();
    let text = insn.operands[0].text;
    (name == b"fnstsw" || name == b"fstsw")
        && insn.count == 1
        && insn.operands[0].kind == REGISTER
        && !text.used().eq_ignore_ascii_case(b"ax")
        && text.as_read() == b"ax"
}
