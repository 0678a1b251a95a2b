//! The reader of records, compared with the plain reader.

use plain::{ENDS_EARLY, FLAT, MODELLED, Outcome, TOO_SHORT, read};

use crate::inputs::{Input, batch};
use crate::instructions::Grid;
use crate::report::{Report, hex};
use crate::rng::Rng;
use crate::subject::Subject;

/// Bytes and words that a case may lend.
const BYTES: usize = FLAT + 7;
const WORDS: usize = 4;

/// What they hold before a call.
const BYTES_BEFORE: [u8; BYTES] = [0xa5; BYTES];
const WORDS_BEFORE: [u64; WORDS] = [0xa5a5, 0x5a5a, 0x1111, 0x2222];

/// How much of them is lent.
#[derive(Debug, Clone, Copy)]
struct Rooms {
    bytes: usize,
    words: usize,
}

/// A number, and what was lent after the call.
#[derive(Clone, PartialEq, Eq)]
pub struct Answer {
    pub number: u32,
    pub words: [u64; WORDS],
    pub bytes: [u8; BYTES],
}

/// Compare `size` inputs.
pub fn run(subject: &impl Subject, size: u64, seed: u64) -> Report {
    let grid = Grid::default();
    let mut rng = Rng::new(seed);
    let mut report = Report::default();
    while report.compared < size {
        for input in batch(&grid, &mut rng) {
            let rooms = random_rooms(&mut rng);
            compare(subject, &input, rooms, &mut report);
        }
    }
    report
}

/// Mostly all of it; now and then any part.
fn random_rooms(rng: &mut Rng) -> Rooms {
    if rng.one_in(64) {
        return Rooms {
            bytes: rng.between(FLAT - 2, BYTES),
            words: rng.below(WORDS + 1),
        };
    }
    Rooms {
        bytes: BYTES,
        words: WORDS,
    }
}

fn compare(subject: &impl Subject, input: &Input, rooms: Rooms, report: &mut Report) {
    let (expected, kind) = expect(input, rooms);
    report.count(expected.number);
    report.note(kind, 1);
    let got = asked(subject, input, rooms);
    if got != expected {
        report.differs(|| say(input, rooms, &expected, &got));
    }
}

/// What the plain reader says, as the call gives it back.
fn expect(input: &Input, rooms: Rooms) -> (Answer, &'static str) {
    let mut answer = Answer {
        number: TOO_SHORT,
        words: WORDS_BEFORE,
        bytes: BYTES_BEFORE,
    };
    if rooms.words < 2 {
        return (answer, "slices too short");
    }
    if rooms.bytes < FLAT {
        answer.words[..2].fill(0);
        return (answer, "slices too short");
    }
    let (number, place, flat) = told(&read(&input.bytes, input.at));
    answer.number = number;
    answer.words[0] = place as u64;
    answer.words[1] = flat.is_some().into();
    if let Some(flat) = flat {
        answer.bytes[..FLAT].copy_from_slice(&flat);
        return (answer, "records");
    }
    let kind = match number {
        MODELLED => "ends",
        ENDS_EARLY => "ending early",
        _ => "refused",
    };
    (answer, kind)
}

/// Number, place, and the instruction of a record.
#[must_use]
pub fn told(outcome: &Outcome) -> (u32, usize, Option<[u8; FLAT]>) {
    match outcome {
        Outcome::Record { insn, next } => (MODELLED, *next, Some(insn.to_flat())),
        Outcome::End { next } => (MODELLED, *next, None),
        Outcome::Refused { number, place } => (*number, *place, None),
    }
}

fn asked(subject: &impl Subject, input: &Input, rooms: Rooms) -> Answer {
    let (mut words, mut bytes) = (WORDS_BEFORE, BYTES_BEFORE);
    let number = subject.read_record(
        &input.bytes,
        input.at,
        &mut bytes[..rooms.bytes],
        &mut words[..rooms.words],
    );
    Answer {
        number,
        words,
        bytes,
    }
}

fn say(input: &Input, rooms: Rooms, expected: &Answer, got: &Answer) -> String {
    format!(
        "read_record at {} of {} bytes, {rooms:?}\ninput {}\nexpected {}\ngot      {}",
        input.at,
        input.bytes.len(),
        hex(&input.bytes),
        spelt(expected),
        spelt(got)
    )
}

fn spelt(answer: &Answer) -> String {
    let Answer {
        number,
        words,
        bytes,
    } = answer;
    format!("{number} {words:?} {}", hex(bytes))
}
