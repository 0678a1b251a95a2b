//! The call that reads a record and lifts it, compared with the two calls
//! that do so one after the other.

use plain::state::{DEPTH, NODES, ROW, SLOTS, STATE, STATEMENTS};
use plain::{FLAT, OVERFLOWED, TOO_SHORT, record};
use sleetgate_sys::{DETAIL, READ, STEP};

use crate::inputs::{Input, batch};
use crate::instructions::Grid;
use crate::report::{Report, hex};
use crate::rng::Rng;
use crate::sequences::Profile;
use crate::subject::{RecordLifter, Subject};

/// What unwritten words hold.
const UNWRITTEN: u64 = 0xa5a5_0000_5a5a_0000;

/// What stands beyond the bytes of an instruction.
const BEYOND: u8 = 0xa5;

/// The end mark.
const END: [u8; 2] = [0x87, 0x45];

/// Records of the longest input, and rows that no instruction adds more
/// than.
const LONGEST: usize = 12;
const ROWS: usize = 46;

/// All that a call is lent to be written.
#[derive(Clone, PartialEq, Eq)]
struct Lent {
    state: Vec<u64>,
    nodes: Vec<u64>,
    statements: Vec<u64>,
    told: Vec<u64>,
}

/// Compare at least `size` calls.
pub fn run(subject: &impl RecordLifter, size: u64, seed: u64) -> Report {
    let grid = Grid::default();
    let mut rng = Rng::new(seed);
    let mut report = Report::default();
    while report.compared < size {
        for _ in 0..16 {
            whole(subject, &grid, &mut rng, &mut report);
        }
        for input in batch(&grid, &mut rng) {
            let lent = random(&mut rng);
            compare(subject, &input, lent, &mut report);
        }
    }
    report
}

/// A whole input, from record to record until something is refused.
fn whole(subject: &impl RecordLifter, grid: &Grid, rng: &mut Rng, report: &mut Report) {
    let profile = Profile::random(rng);
    let length = profile.length.min(LONGEST);
    let mut bytes = Vec::new();
    for _ in 0..length {
        let insn = profile.next(grid, rng, SLOTS / 2);
        bytes.extend(record(&insn));
    }
    bytes.extend(END);
    let mut input = Input { bytes, at: 0 };
    let rows = if rng.one_in(4) {
        rng.below(length * 4)
    } else {
        length * ROWS
    };
    let mut lent = Lent {
        state: vec![0; STATE],
        nodes: vec![UNWRITTEN; rows * ROW + rng.below(ROW)],
        statements: vec![UNWRITTEN; rows * ROW],
        told: vec![UNWRITTEN; STEP],
    };
    loop {
        lent = compare(subject, &input, lent, report);
        if lent.told[1] == 0 {
            return;
        }
        input.at = usize::try_from(lent.told[0]).expect("a place");
    }
}

/// Some state, mostly valid, over some lists, mostly with room; now and
/// then slices that are too short.
fn random(rng: &mut Rng) -> Lent {
    let rows = rng.between(1, 60);
    let room = rows + if rng.one_in(8) { rng.below(6) } else { ROWS };
    let mut state = vec![0; STATE];
    state[DEPTH] = rng.below(SLOTS + 1) as u64;
    for slot in 0..rng.below(SLOTS + 1).min(state[DEPTH] as usize) {
        state[slot] = rng.below(rows) as u64;
    }
    state[NODES] = rows as u64;
    state[STATEMENTS] = rng.below(rows + 1) as u64;
    if rng.one_in(16) {
        state[rng.below(STATE)] = rng.word();
    }
    let mut lent = Lent {
        state,
        nodes: vec![UNWRITTEN; room * ROW + rng.below(ROW)],
        statements: vec![UNWRITTEN; room * ROW + rng.below(ROW)],
        told: vec![UNWRITTEN; STEP + rng.below(2)],
    };
    match rng.below(32) {
        0 => lent.state.truncate(rng.below(STATE)),
        1 => lent.told.truncate(rng.below(STEP)),
        2 => lent.state.push(UNWRITTEN),
        _ => {}
    }
    lent
}

/// Compare one call, and give what was lent after it.
fn compare(subject: &impl RecordLifter, input: &Input, before: Lent, report: &mut Report) -> Lent {
    let mut expected = before.clone();
    let number = two_calls(subject, input, &mut expected);
    report.count(number);
    if let Some(&[_, 1, detail]) = expected.told.first_chunk() {
        report.note("records lifted", 1);
        report.count_detail(u32::try_from(detail).unwrap_or(0));
    }
    let mut got = before.clone();
    let told = subject.lift_record(
        &input.bytes,
        input.at,
        &mut got.state,
        &mut got.nodes,
        &mut got.statements,
        &mut got.told,
    );
    if told != number || got != expected {
        report.differs(|| {
            format!(
                "lift_record at {} of {}\nstate {:?}, {} and {} words of lists\n\
                 expected {number} {:?} {:?}\ngot      {told} {:?} {:?}\nlists equal: {}",
                input.at,
                hex(&input.bytes),
                before.state,
                before.nodes.len(),
                before.statements.len(),
                expected.told,
                expected.state,
                got.told,
                got.state,
                (got.nodes, got.statements)
                    == (expected.nodes.clone(), expected.statements.clone())
            )
        });
    }
    expected
}

/// Read, then lift: places and the detail as the one call tells them.
fn two_calls(subject: &impl Subject, input: &Input, lent: &mut Lent) -> u32 {
    let Lent {
        state,
        nodes,
        statements,
        told,
    } = lent;
    let Some(told) = told.first_chunk_mut::<STEP>() else {
        return TOO_SHORT;
    };
    told.fill(0);
    if state.len() < STATE {
        return TOO_SHORT;
    }
    let (mut flat, mut read) = ([BEYOND; FLAT + 7], [0; READ]);
    let number = subject.read_record(&input.bytes, input.at, &mut flat, &mut read);
    told[..READ].copy_from_slice(&read);
    if read[1] == 0 {
        return number;
    }
    let mut detail = [UNWRITTEN; DETAIL];
    let number = subject.lift(&flat, state, nodes, statements, &mut detail);
    if number > OVERFLOWED {
        told[..READ].copy_from_slice(&[input.at as u64, 0]);
    }
    told[READ..].copy_from_slice(&detail);
    number
}
