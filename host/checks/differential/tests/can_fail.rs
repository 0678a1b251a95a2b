//! The comparison can fail: subjects that answer as expected but for one
//! fault, and the difference that is reported for each.
//!
//! These need no static library, but the oracle.
#![cfg(not(no_oracle))]

#[path = "can_fail/echo.rs"]
mod echo;

use differential::report::Report;
use differential::steps::{self, Step, step};
use differential::subject::Subject;
use differential::trees::Follower;
use differential::{classify, lift, records};
use plain::state::{DEPTH, INPUTS, NODES, SLOTS, STATE, STATEMENTS};
use plain::{BAD_TEXT, DECLINED, FLAT, Instruction, OVERFLOWED, Operand, Text};

use echo::{Echo, Mislift, shown};

/// Takes an instruction of exactly 177 bytes alone.
struct Exactly(Echo);

impl Exactly {
    /// The bytes, or none of them where there are more.
    fn taken<'a>(&self, flat: &'a [u8]) -> &'a [u8] {
        if flat.len() > FLAT { &[] } else { flat }
    }
}

impl Subject for Exactly {
    fn classify(&self, flat: &[u8], out: &mut [u64]) -> u32 {
        self.0.classify(self.taken(flat), out)
    }

    fn why(&self, flat: &[u8], out: &mut [u64]) -> u32 {
        self.0.why(self.taken(flat), out)
    }

    fn effect(&self, flat: &[u8], out: &mut [u64]) -> u32 {
        self.0.effect(self.taken(flat), out)
    }

    fn read_record(&self, input: &[u8], at: usize, flat: &mut [u8], out: &mut [u64]) -> u32 {
        self.0.read_record(input, at, flat, out)
    }

    fn lift(
        &self,
        flat: &[u8],
        state: &mut [u64],
        nodes: &mut [u64],
        statements: &mut [u64],
        out: &mut [u64],
    ) -> u32 {
        let flat = self.taken(flat);
        self.0.lift(flat, state, nodes, statements, out)
    }
}

fn compared(subject: &Echo) -> Report {
    classify::run(subject, 40_000, 3)
}

#[test]
fn without_a_fault_nothing_differs() {
    let report = compared(&Echo::default());
    assert!(report.is_equal(), "{report}");
    let report = records::run(&Echo::default(), 30_000, 3);
    assert!(report.is_equal(), "{report}");
    let report = lift::run(&Echo::default(), 200, 3);
    assert!(report.is_equal(), "{report}");
}

#[test]
fn a_wrong_row_of_the_table_is_reported() {
    let misread = |insn: &mut Instruction| {
        if insn.mnemonic.used() == b"fsubr" {
            insn.mnemonic = Text::new(b"fsub");
        }
    };
    let report = compared(&Echo {
        misread: Some(misread),
        ..Echo::default()
    });
    shown(&report, "5:\"fsubr\"");
}

#[test]
fn a_place_rule_that_takes_8_is_reported() {
    let misread = |insn: &mut Instruction| {
        for operand in &mut insn.operands {
            if operand.text.used() == b"st(8)" {
                operand.text = Text::new(b"st(7)");
            }
        }
    };
    let report = compared(&Echo {
        misread: Some(misread),
        ..Echo::default()
    });
    shown(&report, "5:\"st(8)\"");
}

#[test]
fn a_family_that_forgets_its_operand_count_is_reported() {
    let misread = |insn: &mut Instruction| {
        if insn.mnemonic.used() == b"fabs" && plain::refusal(insn).is_none() {
            insn.count = 0;
        }
    };
    let report = compared(&Echo {
        misread: Some(misread),
        ..Echo::default()
    });
    shown(&report, "4:\"fabs\"");
}

#[test]
fn a_decline_that_is_not_one_is_reported() {
    let misread = |insn: &mut Instruction| {
        if insn.mnemonic.used() == b"fist" {
            insn.mnemonic = Text::new(b"fistp");
        }
    };
    let report = compared(&Echo {
        misread: Some(misread),
        ..Echo::default()
    });
    shown(&report, "4:\"fist\"");
}

#[test]
fn a_word_written_beyond_the_answer_is_reported() {
    let miswrite = |_: u32, out: &mut [u64]| {
        if let Some(word) = out.get_mut(9) {
            *word = 0;
        }
    };
    let report = compared(&Echo {
        miswrite: Some(miswrite),
        ..Echo::default()
    });
    shown(&report, "classify with 12 words lent");
}

#[test]
fn words_that_are_not_told_beside_a_refusal_are_reported() {
    let miswrite = |number: u32, out: &mut [u64]| {
        if let (plain::TOO_SHORT, [0, next, ..]) = (number, out) {
            *next = 1;
        }
    };
    let subject = Echo {
        miswrite: Some(miswrite),
        ..Echo::default()
    };
    shown(&compared(&subject), "no instruction");
    shown(&records::run(&subject, 30_000, 3), "read_record at ");
}

#[test]
fn bytes_beyond_an_instruction_that_are_read_are_reported() {
    let subject = Exactly(Echo::default());
    shown(&classify::run(&subject, 40_000, 3), "classify with ");
    shown(&lift::run(&subject, 20, 3), "");
}

#[test]
fn a_place_behind_the_length_byte_is_reported() {
    let miswrite = |number: u32, out: &mut [u64]| {
        if number == BAD_TEXT {
            out[0] += 1;
        }
    };
    let subject = Echo {
        miswrite: Some(miswrite),
        ..Echo::default()
    };
    shown(&records::run(&subject, 30_000, 3), "expected 3 ");
}

/// A lifter with this fault is reported.
fn lifted(mislift: Mislift) -> Report {
    let subject = Echo {
        mislift: Some(mislift),
        ..Echo::default()
    };
    let report = lift::run(&subject, 120, 3);
    shown(&report, "lift of ");
    report
}

#[test]
fn a_lifter_that_keeps_the_stack_after_a_decline_is_reported() {
    lifted(|before, _, step| {
        if step.answer == DECLINED {
            step.state[..=DEPTH].copy_from_slice(&before[..=DEPTH]);
        }
    });
}

#[test]
fn a_lifter_that_undoes_the_load_when_its_push_overflows_is_reported() {
    lifted(|before, _, step| {
        if step.answer == OVERFLOWED {
            step.nodes.clear();
            step.statements.drain(..step.statements.len() - 1);
            step.state[NODES..].copy_from_slice(&before[NODES..]);
            step.state[STATEMENTS] += 1;
        }
    });
}

#[test]
fn swapped_operands_of_fsubp_are_reported() {
    let report = lifted(|_, insn, step| {
        if insn.mnemonic.used() == b"fsubp" && step.answer == 0 {
            let sub = step.nodes.iter_mut().find(|row| row[0] == 17);
            sub.expect("a subtraction").swap(1, 2);
        }
    });
    shown(&report, "fsubp");
}

#[test]
fn a_lifter_that_declines_everything_is_reported() {
    lifted(|before, insn, step| {
        let mut never = *insn;
        never.mnemonic = Text::new(b"never");
        *step = crate::step(before, &never);
    });
}

#[test]
fn a_lifter_that_works_on_the_first_instruction_only_is_reported() {
    lifted(|before, _, step| {
        if before[NODES] != 0 {
            step.state = *before;
            step.nodes.clear();
            step.statements.clear();
            step.answer = 0;
        }
    });
}

#[test]
fn made_up_counts_are_reported() {
    lifted(|_, _, step| step.state[INPUTS] = 0);
    lifted(|_, _, step| step.state[NODES] += 1);
}

#[test]
fn a_wrong_rounding_of_fisttp_is_reported() {
    lifted(|_, insn, step| {
        if insn.mnemonic.used() == b"fisttp" {
            for row in step.nodes.iter_mut().filter(|row| row[0] == 27) {
                row[2] = 0;
            }
        }
    });
}

#[test]
fn inputs_added_at_the_top_are_reported() {
    lifted(|before, _, step| {
        if step.state[INPUTS] > before[INPUTS] + 1 && step.answer == 0 {
            step.state[..SLOTS].swap(0, 1);
        }
    });
}

/// Instructions whose rows have every kind of node and of statement.
const TELLING: [(&str, &[&str], u16); 12] = [
    ("fld", &[], 80),
    ("fld", &[], 32),
    ("fild", &[], 16),
    ("fcmovnbe", &["st(0)", "st(2)"], 0),
    ("fcom", &["st(1)"], 0),
    ("fcomi", &["st(1)"], 0),
    ("fnstsw", &["ax"], 0),
    ("fnstsw", &[], 16),
    ("fabs", &[], 0),
    ("fsqrt", &[], 0),
    ("fstp", &[], 80),
    ("fisttp", &[], 64),
];

fn telling((name, places, width): (&str, &[&str], u16)) -> Instruction {
    let mut operands: Vec<Operand> = places
        .iter()
        .map(|place| Operand::register(place.as_bytes()))
        .collect();
    if width != 0 {
        operands.push(Operand::memory(width, true, 4, 0));
    }
    Instruction::new(9, name.as_bytes(), &operands)
}

/// The words of both lists that one instruction adds to a fresh state.
fn lists(step: &Step) -> [Vec<u64>; 2] {
    [&step.nodes, &step.statements].map(|rows| steps::words(rows))
}

#[test]
fn a_changed_word_of_any_row_is_another_tree() {
    for insn in TELLING.map(telling) {
        let step = step(&[0; STATE], &insn);
        let follow = |[nodes, statements]: &[Vec<u64>; 2]| {
            Follower::default().follow(&insn, &[0; STATE], &step.state, (nodes, statements))
        };
        let right = lists(&step);
        assert_eq!((step.answer, follow(&right)), (0, Ok(())));
        for list in [0, 1] {
            for at in 0..right[list].len() {
                let mut wrong = right.clone();
                wrong[list][at] ^= 1;
                assert!(follow(&wrong).is_err(), "{insn:?}: list {list}, word {at}");
            }
        }
    }
}

/// Rows beyond a result, and rows of earlier instructions, stay: a
/// subject that touches one is found at once, or at the sequence's end.
struct Scribbler(usize);

impl Subject for Scribbler {
    fn classify(&self, flat: &[u8], out: &mut [u64]) -> u32 {
        Echo::default().classify(flat, out)
    }

    fn why(&self, flat: &[u8], out: &mut [u64]) -> u32 {
        Echo::default().why(flat, out)
    }

    fn effect(&self, flat: &[u8], out: &mut [u64]) -> u32 {
        Echo::default().effect(flat, out)
    }

    fn read_record(&self, input: &[u8], at: usize, flat: &mut [u8], out: &mut [u64]) -> u32 {
        Echo::default().read_record(input, at, flat, out)
    }

    fn lift(
        &self,
        flat: &[u8],
        state: &mut [u64],
        nodes: &mut [u64],
        statements: &mut [u64],
        out: &mut [u64],
    ) -> u32 {
        let number = Echo::default().lift(flat, state, nodes, statements, out);
        if let Some(word) = nodes.get_mut(self.0) {
            *word ^= 1;
        }
        number
    }
}

#[test]
fn a_changed_word_of_an_earlier_row_is_reported() {
    let report = lift::run(&Scribbler(1), 20, 3);
    assert!(!report.is_equal(), "{report}");
    let report = lift::run(&Scribbler(2000), 20, 3);
    assert!(!report.is_equal(), "{report}");
}
