//! A subject that answers as expected but for one fault.

use differential::report::Report;
use differential::steps::Step;
use differential::subject::Subject;
use differential::{expect, lift, records};
use plain::state::{STATE, STATEMENTS, room};
use plain::{FLAT, Instruction};

/// Answers as expected, after its fault has changed what it is asked or
/// what it says.
#[derive(Default)]
pub struct Echo {
    /// A change of the instruction before it is looked at.
    pub misread: Option<fn(&mut Instruction)>,
    /// A change of the words after the answer.
    pub miswrite: Option<fn(u32, &mut [u64])>,
    /// A change of a lifted step that began in this state.
    pub mislift: Option<Mislift>,
}

pub type Mislift = fn(&[u64; STATE], &Instruction, &mut Step);

impl Echo {
    fn asked(&self, flat: &[u8]) -> Vec<u8> {
        let mut seen = flat.to_vec();
        if let (Some(misread), Some(flat)) = (self.misread, flat.first_chunk()) {
            let mut insn = Instruction::from_flat(flat);
            misread(&mut insn);
            seen = insn.to_flat().to_vec();
        }
        seen
    }

    fn told(&self, answer: &expect::Answer, out: &mut [u64]) -> u32 {
        out.copy_from_slice(&answer.words[..out.len()]);
        if let Some(miswrite) = self.miswrite {
            miswrite(answer.number, out);
        }
        answer.number
    }
}

impl Subject for Echo {
    fn classify(&self, flat: &[u8], out: &mut [u64]) -> u32 {
        let answer = expect::classify(&self.asked(flat), out.len());
        self.told(&answer, out)
    }

    fn why(&self, flat: &[u8], out: &mut [u64]) -> u32 {
        let answer = expect::why(&self.asked(flat), out.len());
        self.told(&answer, out)
    }

    fn effect(&self, flat: &[u8], out: &mut [u64]) -> u32 {
        let answer = expect::effect(&self.asked(flat), out.len());
        self.told(&answer, out)
    }

    fn read_record(&self, input: &[u8], at: usize, flat: &mut [u8], out: &mut [u64]) -> u32 {
        if out.len() < 2 {
            return plain::TOO_SHORT;
        }
        let (number, place, insn) = if flat.len() < FLAT {
            (plain::TOO_SHORT, 0, None)
        } else {
            records::told(&plain::read(input, at))
        };
        out[..2].copy_from_slice(&[place as u64, insn.is_some().into()]);
        if let Some(insn) = insn {
            flat[..FLAT].copy_from_slice(&insn);
        }
        if let Some(miswrite) = self.miswrite {
            miswrite(number, out);
        }
        number
    }

    fn lift(
        &self,
        flat: &[u8],
        state: &mut [u64],
        nodes: &mut [u64],
        statements: &mut [u64],
        out: &mut [u64],
    ) -> u32 {
        let seen = self.asked(flat);
        let expected = lift::expect(&seen, state, nodes.len(), statements.len(), out.len());
        expected.tell(out);
        let Some(mut step) = expected.step else {
            return expected.number;
        };
        if let (Some(mislift), Some(flat)) = (self.mislift, flat.first_chunk()) {
            let before = state[..STATE].try_into().expect("13 words");
            let mut wrong = step.clone();
            mislift(&before, &Instruction::from_flat(flat), &mut wrong);
            if wrong.state[STATEMENTS] <= room(statements.len()) {
                step = wrong;
            }
        }
        lift::write(nodes, statements, state, &step);
        state[..STATE].copy_from_slice(&step.state);
        out[0] = step.detail.into();
        step.answer
    }
}

/// Differences are reported, and the first of them shows the fault.
pub fn shown(report: &Report, fault: &str) {
    let first = report.first.as_deref().expect("a difference is reported");
    assert!(report.differences > 0 && !report.is_equal());
    assert!(first.contains(fault), "{first}");
}
