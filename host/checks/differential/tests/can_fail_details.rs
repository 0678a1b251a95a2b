//! The comparison of details can fail: subjects that answer as expected
//! but for one fault in the details of declines, and the difference that
//! is reported for each.
//!
//! These need no static library, but the oracle.
#![cfg(not(no_oracle))]

#[path = "can_fail/echo.rs"]
mod echo;

use differential::steps::{step, words};
use differential::subject::Subject;
use differential::trees::Follower;
use differential::{classify, lift, stored};
use plain::state::{ROW, STATE, STATEMENTS};
use plain::{DECLINED, Instruction, MEMORY, MODELLED, OTHER, OVERFLOWED, Operand};

use echo::{Echo, shown};

/// The detail of an instruction that has this answer, where this is the
/// right one.
type Misdetail = fn(&Instruction, u32, u64) -> u64;

/// Answers as expected, but for the details.
struct Faulty {
    fault: Misdetail,
    /// Whether they are told wrongly, and whether they are written wrongly
    /// into statements.
    told: bool,
    written: bool,
}

impl Faulty {
    /// Put the fault into a detail of the instruction in these bytes.
    fn put(&self, flat: &[u8], number: u32, detail: Option<&mut u64>) {
        if let (Some(flat), Some(detail)) = (flat.first_chunk(), detail) {
            *detail = (self.fault)(&Instruction::from_flat(flat), number, *detail);
        }
    }
}

impl Subject for Faulty {
    fn classify(&self, flat: &[u8], out: &mut [u64]) -> u32 {
        Echo::default().classify(flat, out)
    }

    fn why(&self, flat: &[u8], out: &mut [u64]) -> u32 {
        let number = Echo::default().why(flat, out);
        self.put(flat, number, out.first_mut().filter(|_| self.told));
        number
    }

    fn effect(&self, flat: &[u8], out: &mut [u64]) -> u32 {
        Echo::default().effect(flat, out)
    }

    fn read_record(&self, input: &[u8], at: usize, flat: &mut [u8], out: &mut [u64]) -> u32 {
        Echo::default().read_record(input, at, flat, out)
    }

    fn lift(
        &self,
        flat: &[u8],
        state: &mut [u64],
        nodes: &mut [u64],
        statements: &mut [u64],
        out: &mut [u64],
    ) -> u32 {
        let number = Echo::default().lift(flat, state, nodes, statements, out);
        self.put(flat, number, out.first_mut().filter(|_| self.told));
        if let (DECLINED | OVERFLOWED, true) = (number, self.written) {
            let rows = usize::try_from(state[STATEMENTS]).expect("in memory");
            self.put(flat, number, statements.get_mut(rows * ROW - 1));
        }
        number
    }
}

/// A stored file.
fn file(name: &str) -> Vec<u8> {
    stored::file(name).expect("it is stored")
}

/// The fault is reported by `why`, by `lift`, and on the stored answers of
/// both.
fn reported(fault: Misdetail) {
    let subject = Faulty {
        fault,
        told: true,
        written: true,
    };
    shown(&classify::run(&subject, 20_000, 3), "why with ");
    let stored = stored::instructions(&subject, &file("instructions.bin"));
    shown(&stored, "stored ");
    reported_by_lift(&subject);
}

fn reported_by_lift(subject: &Faulty) {
    shown(&lift::run(subject, 150, 3), "lift of ");
    shown(&stored::lifts(subject, &file("lifts.bin")), "stored ");
}

#[test]
fn without_a_fault_nothing_differs() {
    let subject = Faulty {
        fault: |_, _, detail| detail,
        told: true,
        written: true,
    };
    let reports = [
        classify::run(&subject, 20_000, 3),
        lift::run(&subject, 150, 3),
        stored::instructions(&subject, &file("instructions.bin")),
        stored::lifts(&subject, &file("lifts.bin")),
    ];
    for report in reports {
        assert!(report.is_equal(), "{report}");
        assert!(!report.details.contains(&0), "{report}");
    }
}

/// Whether an operand is memory at an address that is not known.
fn has_unknown_address(insn: &Instruction) -> bool {
    let mut operands = insn.used().iter();
    operands.any(|operand| operand.kind == MEMORY && operand.known == 0)
}

/// The detail, were all addresses known.
fn with_known_addresses(insn: &Instruction) -> u32 {
    let mut insn = *insn;
    for operand in &mut insn.operands {
        operand.known = 1;
    }
    plain::why(&insn)
}

#[test]
fn details_in_another_order_are_reported() {
    // The operands are counted before the name is looked up.
    reported(|insn, _, detail| match detail {
        21 if insn.count == 3 => 22,
        _ => detail,
    });
    // Kinds before the count.
    reported(|insn, _, detail| match detail {
        22 if insn.used().iter().any(|operand| operand.kind == OTHER) => 23,
        _ => detail,
    });
    // Addresses before kinds.
    reported(|insn, _, detail| match detail {
        23 if has_unknown_address(insn) => 24,
        _ => detail,
    });
    // Widths before addresses.
    reported(|insn, _, detail| match detail {
        24 if with_known_addresses(insn) == 25 => 25,
        _ => detail,
    });
}

/// Whether the instruction has a name that begins so.
fn begins(insn: &Instruction, start: &[u8]) -> bool {
    insn.mnemonic.as_read().starts_with(start)
}

#[test]
fn a_count_that_is_off_by_one_is_reported() {
    // The names that take an integer take a second operand.
    reported(|insn, _, detail| match detail {
        22 if begins(insn, b"fi") && insn.count == 2 => 23,
        _ => detail,
    });
}

#[test]
fn a_detail_for_another_is_reported() {
    // A width is a wrong kind.
    reported(|_, _, detail| if detail == 25 { 23 } else { detail });
    // Another place than st(0), where only that is taken, is a wrong width.
    reported(|insn, _, detail| {
        let mut top = *insn;
        top.operands[0] = Operand::register(b"st(0)");
        match detail {
            23 if begins(insn, b"fcmov") && plain::why(&top) == 0 => 25,
            _ => detail,
        }
    });
    // A name that is unknown has no detail.
    reported(|_, _, detail| if detail == 21 { 0 } else { detail });
}

#[test]
fn a_detail_where_there_is_none_is_reported() {
    // A modelled instruction has one.
    reported(|_, number, detail| if number == MODELLED { 25 } else { detail });
    // A refused one has one.
    reported(|_, number, detail| if number > OVERFLOWED { 21 } else { detail });
    // An overflow has one, as it is told or in its statement.
    for (told, written) in [(true, false), (false, true)] {
        reported_by_lift(&Faulty {
            fault: |_, number, detail| if number == OVERFLOWED { 25 } else { detail },
            told,
            written,
        });
    }
}

#[test]
fn a_detail_that_is_told_and_not_written_is_reported() {
    for (told, written) in [(true, false), (false, true)] {
        reported_by_lift(&Faulty {
            fault: |_, number, detail| if number == DECLINED { 0 } else { detail },
            told,
            written,
        });
    }
}

/// Answers as expected, but for the words that it is lent.
struct Careless {
    /// Whether it lifts where the detail has no room.
    room: bool,
    /// Whether it writes the word beyond the detail.
    beyond: bool,
}

impl Subject for Careless {
    fn classify(&self, flat: &[u8], out: &mut [u64]) -> u32 {
        Echo::default().classify(flat, out)
    }

    fn why(&self, flat: &[u8], out: &mut [u64]) -> u32 {
        let number = Echo::default().why(flat, out);
        if let (true, Some(word)) = (self.beyond, out.get_mut(1)) {
            *word = 0;
        }
        number
    }

    fn effect(&self, flat: &[u8], out: &mut [u64]) -> u32 {
        Echo::default().effect(flat, out)
    }

    fn read_record(&self, input: &[u8], at: usize, flat: &mut [u8], out: &mut [u64]) -> u32 {
        Echo::default().read_record(input, at, flat, out)
    }

    fn lift(
        &self,
        flat: &[u8],
        state: &mut [u64],
        nodes: &mut [u64],
        statements: &mut [u64],
        out: &mut [u64],
    ) -> u32 {
        let mut own = [0];
        let told: &mut [u64] = if self.room && out.is_empty() {
            &mut own
        } else {
            out
        };
        let number = Echo::default().lift(flat, state, nodes, statements, told);
        if let (true, Some(word)) = (self.beyond, told.get_mut(1)) {
            *word = 0;
        }
        number
    }
}

#[test]
fn a_lift_without_room_for_the_detail_is_reported() {
    let subject = Careless {
        room: true,
        beyond: false,
    };
    shown(&lift::run(&subject, 120, 3), "expected Answer { number: 10");
}

#[test]
fn a_word_written_beyond_the_detail_is_reported() {
    let subject = Careless {
        room: false,
        beyond: true,
    };
    shown(&classify::run(&subject, 20_000, 3), "why with ");
    shown(&lift::run(&subject, 120, 3), "lift of ");
}

#[test]
fn a_changed_word_of_a_decline_is_another_statement() {
    let insn = Instruction::new(9, b"fprem", &[]);
    let step = step(&[0; STATE], &insn);
    let right = words(&step.statements);
    assert_eq!(right, [6, 1, 9, 21]);
    let follow = |statements: &[u64]| {
        Follower::default().follow(&insn, &[0; STATE], &step.state, (&[], statements))
    };
    assert_eq!(follow(&right), Ok(()));
    for at in 0..right.len() {
        let mut wrong = right.clone();
        wrong[at] ^= 1;
        assert!(follow(&wrong).is_err(), "word {at}");
    }
}
