//! Classify and effect, compared with the Rust, and why an instruction is
//! declined, compared with what is said plainly.

use plain::{DECLINED, DETAILS, FLAT, Instruction, MODELLED};

use crate::expect::{self, Answer, BEFORE, LENT};
use crate::instructions::{Grid, fill_unused, put_out_of_range};
use crate::report::{Report, hex};
use crate::rng::Rng;
use crate::subject::Subject;
use crate::wellformed;

/// What stands beyond the bytes of an instruction.
const BEYOND: u8 = 0xa5;

/// One case: any bytes, and how many words are lent.
struct Case {
    flat: Vec<u8>,
    room: usize,
}

/// Compare `size` cases. With room for the whole grid the grid comes
/// first, random cases follow, and each detail must be among them; with
/// less, the cases are spread over the grid, and one in eight is random.
pub fn run(subject: &impl Subject, size: u64, seed: u64) -> Report {
    let grid = Grid::default();
    let mut rng = Rng::new(seed);
    let mut report = Report::default();
    let whole = size >= grid.len() as u64;
    for number in 0..size {
        let chosen = if whole {
            usize::try_from(number).expect("in memory")
        } else if rng.one_in(8) {
            grid.len()
        } else {
            rng.below(grid.len())
        };
        let case = if chosen < grid.len() {
            grid_case(&grid, chosen, &mut rng)
        } else {
            random_case(&grid, &mut rng)
        };
        compare(subject, &case, &mut report);
    }
    if whole && report.details.contains(&0) {
        report.differs(|| "a detail that nothing of the grid has".to_string());
    }
    report
}

/// An instruction of the grid; every other one with random bytes in what
/// must be ignored.
fn grid_case(grid: &Grid, at: usize, rng: &mut Rng) -> Case {
    let mut insn = grid.at(at);
    if rng.one_in(2) {
        fill_unused(&mut insn, rng);
    }
    Case {
        flat: insn.to_flat().to_vec(),
        room: LENT,
    }
}

/// A random instruction, in the domain or out of it, often one that is
/// nearly well formed; now and then with too few bytes or words, or with
/// bytes beyond.
fn random_case(grid: &Grid, rng: &mut Rng) -> Case {
    let mut insn = if rng.one_in(3) {
        wellformed::nearly(rng)
    } else {
        grid.random(rng)
    };
    if rng.one_in(2) {
        fill_unused(&mut insn, rng);
    }
    if rng.one_in(3) {
        for _ in 0..rng.between(1, 3) {
            put_out_of_range(&mut insn, rng);
        }
    }
    let mut flat = insn.to_flat().to_vec();
    if rng.one_in(32) {
        flat.resize(rng.below(2 * FLAT + 1), BEYOND);
    }
    let room = if rng.one_in(8) {
        rng.below(LENT + 1)
    } else {
        LENT
    };
    Case { flat, room }
}

fn compare(subject: &impl Subject, case: &Case, report: &mut Report) {
    let expected = expect::classify(&case.flat, case.room);
    report.count(expected.number);
    let got = asked(case, |flat, out| subject.classify(flat, out));
    if got != expected {
        report.differs(|| say("classify", case, &expected, &got));
    }
    compare_why(subject, case, report);
    if expect::blanks_around_ax(&case.flat) {
        report.note("effect left out (blanks around ax)", 1);
        return;
    }
    let expected = expect::effect(&case.flat, case.room);
    let got = asked(case, |flat, out| subject.effect(flat, out));
    if got != expected {
        report.differs(|| say("effect", case, &expected, &got));
    }
}

/// Compare the detail; and what the Rust declines has one, and what it
/// models has none.
fn compare_why(subject: &impl Subject, case: &Case, report: &mut Report) {
    let expected = expect::why(&case.flat, case.room);
    let got = asked(case, |flat, out| subject.why(flat, out));
    if got != expected {
        report.differs(|| say("why", case, &expected, &got));
    }
    if let (number @ (MODELLED | DECLINED), Some(flat)) = (expected.number, case.flat.first_chunk())
    {
        let detail = plain::why(&Instruction::from_flat(flat));
        report.count_detail(detail);
        if !belongs(detail, number) {
            report.differs(|| say(&format!("detail {detail}"), case, &expected, &got));
        }
    }
}

/// Whether a detail is one that stands beside this answer of the Rust.
fn belongs(detail: u32, number: u32) -> bool {
    match number {
        DECLINED => DETAILS.contains(&detail),
        _ => detail == 0,
    }
}

/// The answer of a call to a case.
fn asked(case: &Case, call: impl Fn(&[u8], &mut [u64]) -> u32) -> Answer {
    let mut words = BEFORE;
    let number = call(&case.flat, &mut words[..case.room]);
    Answer { number, words }
}

fn say(call: &str, case: &Case, expected: &Answer, got: &Answer) -> String {
    let insn = case
        .flat
        .first_chunk()
        .map_or("no instruction".to_string(), |flat| {
            format!("{:#?}", Instruction::from_flat(flat))
        });
    format!(
        "{call} with {} words lent\nexpected {expected:x?}\ngot      {got:x?}\nbytes {}\n{insn}",
        case.room,
        hex(&case.flat)
    )
}

#[cfg(test)]
mod tests {
    use super::belongs;

    #[test]
    fn a_decline_has_a_detail_and_nothing_else_has() {
        assert!(belongs(21, 1) && belongs(25, 1) && belongs(0, 0));
        assert!(!belongs(0, 1) && !belongs(20, 1) && !belongs(26, 1));
        assert!(!belongs(21, 0) && !belongs(25, 0));
    }
}
