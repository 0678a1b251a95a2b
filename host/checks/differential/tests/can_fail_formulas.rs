//! The comparisons on images, sorts and values can fail: the library with
//! one fault put into what it is asked or what it says, and the
//! difference that is reported for each.

use std::sync::Once;

use differential::report::Report;
use differential::solver::Solver;
use differential::subject::{Formulas, Images, Library, RecordLifter, Subject};
use differential::{
    checks, fewer, images, left_out, record_lifts, stored, stored_formulas, values,
};
use plain::state::{ROW, STATE};
use plain::values::{VALUE, takes_given, value};

/// A change of a row, with its number, before it is looked at.
type Misread = fn(u64, &mut [u64]);
/// Another answer, and other words beside it.
type Misjudge = fn(u32, &mut [u64]) -> u32;
/// A change of the values of a call.
type Misvalue = fn(&Told, &mut [u64]);
/// A change of the pattern that was read of an image.
type Misimage = fn(&[u8], &mut [u64]);
/// A change of the bytes that were written, which were these before.
type Miswrite = fn(&[u8], &mut [u8]);

/// The library, but for a fault.
#[derive(Default)]
struct Faulty {
    misread: Option<Misread>,
    misjudge: Option<Misjudge>,
    misvalue: Option<Misvalue>,
    misimage: Option<Misimage>,
    miswrite: Option<Miswrite>,
}

/// A call to evaluate, and its answer.
struct Told<'a> {
    nodes: &'a [u64],
    given: &'a [u64],
    number: u32,
}

impl Told<'_> {
    /// Change the low word of each value of a kind to what this says of
    /// the row and the column.
    fn of_kind(&self, kind: u64, column: &mut [u64], low: fn(&[u64], &[u64]) -> u64) {
        let rows = self.nodes.chunks_exact(ROW).enumerate();
        for (node, row) in rows.filter(|(_, row)| row[0] == kind) {
            if self.number == 0 && node < column.len() / VALUE {
                column[node * VALUE] = low(row, column);
            }
        }
    }
}

/// The value of an operand.
fn operand(field: u64, column: &[u64]) -> u128 {
    value(column, usize::try_from(field).expect("an earlier node"))
}

impl Faulty {
    fn seen(&self, nodes: &[u64]) -> Vec<u64> {
        let mut seen = nodes.to_vec();
        if let Some(misread) = self.misread {
            for (number, row) in seen.chunks_exact_mut(ROW).enumerate() {
                misread(number as u64, row);
            }
        }
        seen
    }

    fn judged(&self, number: u32, out: &mut [u64]) -> u32 {
        self.misjudge.map_or(number, |judge| judge(number, out))
    }
}

impl Images for Faulty {
    fn image_read(&self, image: &[u8], low: u64, high: u64, out: &mut [u64]) -> u32 {
        let number = Library.image_read(image, low, high, out);
        if let (Some(misimage), 0) = (self.misimage, number) {
            misimage(image, out);
        }
        self.judged(number, out)
    }

    fn image_write(&self, image: &mut [u8], low: u64, high: u64) -> u32 {
        let before = image.to_vec();
        let number = Library.image_write(image, low, high);
        if let (Some(miswrite), 0) = (self.miswrite, number) {
            miswrite(&before, image);
        }
        number
    }
}

impl Formulas for Faulty {
    fn check(&self, nodes: &[u64], count: usize, out: &mut [u64]) -> u32 {
        let number = Library.check(&self.seen(nodes), count, out);
        self.judged(number, out)
    }

    fn evaluate(
        &self,
        nodes: &[u64],
        count: usize,
        given: &[u64],
        column: &mut [u64],
        out: &mut [u64],
    ) -> u32 {
        let number = Library.evaluate(&self.seen(nodes), count, given, column, out);
        if let Some(misvalue) = self.misvalue {
            let told = Told {
                nodes: &nodes[..nodes.len().min(count.saturating_mul(ROW))],
                given,
                number,
            };
            misvalue(&told, column);
        }
        self.judged(number, out)
    }
}

/// Differences are reported, and the first of them shows the call.
fn shown(report: &Report, call: &str) {
    let first = report.first.as_deref().expect("a difference is reported");
    assert!(report.differences > 0 && !report.is_equal());
    assert!(first.contains(call), "{first}");
}

/// A sort check with this fault is reported, on random lists and on the
/// stored ones.
fn checked(subject: &Faulty) {
    shown(&checks::run(subject, fewer(20_000), 3), "check of ");
    let stored = stored::file("checks.bin").expect("it is stored");
    shown(&stored_formulas::checks(subject, &stored), "check of ");
}

fn misjudged(misjudge: Misjudge) -> Faulty {
    Faulty {
        misjudge: Some(misjudge),
        ..Faulty::default()
    }
}

fn misread(misread: Misread) -> Faulty {
    Faulty {
        misread: Some(misread),
        ..Faulty::default()
    }
}

#[test]
fn a_check_that_passes_or_faults_everything_is_reported() {
    checked(&misjudged(|_, out| {
        out.fill(0);
        0
    }));
    checked(&misjudged(|_, out| {
        out.fill(0);
        8
    }));
}

#[test]
fn a_check_that_names_another_node_is_reported() {
    checked(&misjudged(|number, out| {
        if number == 8 {
            out[0] += 1;
        }
        number
    }));
}

#[test]
fn a_check_that_looks_past_a_fault_is_reported() {
    // An extract up to the width itself.
    checked(&misread(|_, row| {
        if row[0] == 14 {
            row[2] = row[2].wrapping_sub(u64::from(row[2] != row[3]));
        }
    }));
    // An operand that names its own node.
    checked(&misread(|number, row| {
        if (7..=26).contains(&row[0]) && row[1] == number {
            row[1] = number.saturating_sub(1);
        }
    }));
    // Unused fields.
    checked(&misread(|_, row| {
        if let 4 | 5 | 12 | 22 | 26 = row[0] {
            row[3] = 0;
        }
    }));
    // Roundings over 1.
    checked(&misread(|_, row| {
        if let 16..=19 = row[0] {
            row[3] &= 1;
        }
    }));
    // Constants that do not fit.
    checked(&misread(|_, row| {
        if row[0] == 6 {
            row[2] &= 0xffff;
        }
    }));
}

#[test]
fn a_word_beyond_the_verdict_is_reported() {
    let subject = misjudged(|number, out| {
        if let Some(word) = out.get_mut(1) {
            *word = 0;
        }
        number
    });
    shown(&checks::run(&subject, fewer(20_000), 3), "check of ");
}

/// The solvers that are at hand; of the others it is said once that they
/// are not.
fn solvers() -> impl Iterator<Item = Solver> {
    static SAID: Once = Once::new();
    let (found, missing): (Vec<Solver>, Vec<Solver>) =
        Solver::ALL.into_iter().partition(|solver| solver.at_hand());
    SAID.call_once(|| {
        missing
            .iter()
            .for_each(|solver| left_out(&solver.missing()))
    });
    found.into_iter()
}

/// An evaluator with this fault is reported, by each solver that is at
/// hand and on the stored lists.
fn evaluated(subject: &Faulty) {
    for solver in solvers() {
        let report = values::run(subject, solver, 150, 3).expect("the solver runs");
        shown(&report, "evaluation of ");
    }
    let stored = stored::file("values.bin").expect("it is stored");
    shown(&stored_formulas::values(subject, &stored), "evaluation of ");
}

fn misvalued(misvalue: Misvalue) {
    evaluated(&Faulty {
        misvalue: Some(misvalue),
        ..Faulty::default()
    });
}

#[test]
fn an_evaluator_that_answers_zero_is_reported() {
    misvalued(|told, column| {
        if told.number == 0 {
            column.fill(0);
        }
    });
}

#[test]
fn an_evaluator_that_keeps_a_given_nan_is_reported() {
    misvalued(|told, column| {
        if told.number == 0 {
            for (node, row) in told.nodes.chunks_exact(ROW).enumerate() {
                let at = node * VALUE..(node + 1) * VALUE;
                if takes_given(row[0]) {
                    column[at.clone()].copy_from_slice(&told.given[at]);
                }
            }
        }
    });
}

#[test]
fn compares_of_patterns_in_the_place_of_numbers_are_reported() {
    misvalued(|told, column| {
        told.of_kind(20, column, |row, column| {
            u64::from(operand(row[1], column) == operand(row[2], column))
        });
    });
    misvalued(|told, column| {
        told.of_kind(21, column, |row, column| {
            u64::from(operand(row[1], column) < operand(row[2], column))
        });
    });
}

#[test]
fn a_wrong_pattern_of_a_float_is_reported() {
    misvalued(|told, column| {
        told.of_kind(26, column, |row, column| {
            let low = operand(row[1], column) & u128::from(u64::MAX);
            u64::try_from(low).expect("64 bits") ^ 1
        });
    });
}

#[test]
fn swapped_halves_of_a_concat_are_reported() {
    evaluated(&misread(|_, row| {
        if row[0] == 15 {
            row.swap(1, 2);
        }
    }));
}

#[test]
fn a_refusal_that_writes_or_names_another_node_is_reported() {
    misvalued(|told, column| {
        if told.number != 0 {
            column.fill(0);
        }
    });
    evaluated(&misjudged(|number, out| {
        if number == 9 {
            out[0] += 1;
        }
        number
    }));
}

/// Image calls with this fault are reported, by the processor and on the
/// stored images.
fn imaged(subject: &Faulty, what: &str) {
    shown(&images::run(subject, fewer(20_000), 3), what);
    let stored = stored::file("images.bin").expect("it is stored");
    shown(&stored_formulas::images(subject, &stored), "stored ");
}

fn miswritten(miswrite: Miswrite) {
    let subject = Faulty {
        miswrite: Some(miswrite),
        ..Faulty::default()
    };
    imaged(&subject, "");
}

#[test]
fn a_wrong_writer_of_images_is_reported() {
    // It leaves its bytes.
    miswritten(|before, image| image.copy_from_slice(before));
    // The integer bit is always 1.
    miswritten(|_, image| image[7] |= 0x80);
    // The sign is lost.
    miswritten(|_, image| image[9] &= 0x7f);
}

#[test]
fn a_wrong_reader_of_images_is_reported() {
    // An exponent of 0 with the integer bit is a number to the processor.
    let subject = Faulty {
        misimage: Some(|image, out| {
            if image[8] == 0 && image[9] & 0x7f == 0 && image[7] & 0x80 != 0 {
                out.fill(0);
            }
        }),
        ..Faulty::default()
    };
    imaged(&subject, "Denormal");
    // A signalling NaN is made quiet.
    let subject = Faulty {
        misimage: Some(|_, out| {
            let fraction = out[0] & u64::MAX >> 1;
            if out[1] & 0x3fff == 0x3fff && out[0] != fraction && fraction != 0 {
                out[0] |= 1 << 62;
            }
        }),
        ..Faulty::default()
    };
    imaged(&subject, "image ");
    // Words that are not told beside a refusal.
    let subject = misjudged(|number, out| {
        if number == 9 {
            out[..2].fill(7);
        }
        number
    });
    imaged(&subject, "read of ");
    // No free pattern is too wide.
    imaged(
        &misjudged(|number, _| if number == 9 { 0 } else { number }),
        "read of ",
    );
}

/// A change of the state and of the words that the call on a record
/// tells, with its answer and place.
type Mistell = fn(u32, usize, &mut [u64], &mut [u64]);

/// The library, but for a fault in what the call on a record tells.
struct FaultyRecords(Mistell);

impl Subject for FaultyRecords {
    fn classify(&self, flat: &[u8], out: &mut [u64]) -> u32 {
        Library.classify(flat, out)
    }

    fn why(&self, flat: &[u8], out: &mut [u64]) -> u32 {
        Library.why(flat, out)
    }

    fn effect(&self, flat: &[u8], out: &mut [u64]) -> u32 {
        Library.effect(flat, out)
    }

    fn read_record(&self, input: &[u8], at: usize, flat: &mut [u8], out: &mut [u64]) -> u32 {
        Library.read_record(input, at, flat, out)
    }

    fn lift(
        &self,
        flat: &[u8],
        state: &mut [u64],
        nodes: &mut [u64],
        statements: &mut [u64],
        out: &mut [u64],
    ) -> u32 {
        Library.lift(flat, state, nodes, statements, out)
    }
}

impl RecordLifter for FaultyRecords {
    fn lift_record(
        &self,
        input: &[u8],
        at: usize,
        state: &mut [u64],
        nodes: &mut [u64],
        statements: &mut [u64],
        out: &mut [u64],
    ) -> u32 {
        let number = Library.lift_record(input, at, state, nodes, statements, out);
        (self.0)(number, at, state, out);
        number
    }
}

/// Each of these faults in the call on a record is reported.
fn records_reported(faults: &[Mistell]) {
    for &fault in faults {
        let report = record_lifts::run(&FaultyRecords(fault), fewer(20_000), 3);
        shown(&report, "lift_record at ");
    }
}

#[test]
fn wrong_places_and_states_of_a_lifted_record_are_reported() {
    let faults: [Mistell; 5] = [
        // A refusal of the lifter has the place behind the record.
        |number, _, _, out| {
            if number == 6 {
                out[0] += 1;
            }
        },
        // A decline is no lifted record.
        |number, _, _, out| {
            if number == 1 {
                out[1] = 0;
            }
        },
        // A refusal changes the state.
        |number, _, state, _| {
            if number == 11 && !state.is_empty() {
                state[0] += 1;
            }
        },
        // A state that is too short has a place.
        |number, _, state, out| {
            if number == 10 && state.len() < STATE && out.len() > 1 {
                out[0] = 1;
            }
        },
        // A refusal of the reader has the record's own place.
        |number, at, _, out| {
            if number == 3 {
                out[0] = at as u64;
            }
        },
    ];
    records_reported(&faults);
}

#[test]
fn wrong_details_of_a_lifted_record_are_reported() {
    let faults: [Mistell; 4] = [
        // A decline has no detail.
        |number, _, _, out| {
            if number == 1 {
                out[2] = 0;
            }
        },
        // An overflow has one.
        |number, _, _, out| {
            if number == 2 {
                out[2] = 21;
            }
        },
        // A refusal of the reader has one.
        |number, _, _, out| {
            if number == 12 {
                out[2] = 21;
            }
        },
        // A word beyond the detail is written.
        |_, _, _, out| {
            if let Some(word) = out.get_mut(3) {
                *word = 0;
            }
        },
    ];
    records_reported(&faults);
}

#[test]
fn without_a_fault_nothing_differs() {
    let subject = Faulty::default();
    let reports = [
        checks::run(&subject, fewer(20_000), 3),
        images::run(&subject, fewer(20_000), 3),
        record_lifts::run(&FaultyRecords(|_, _, _, _| ()), fewer(20_000), 3),
    ];
    for report in reports {
        assert!(report.is_equal(), "{report}");
    }
    for solver in solvers() {
        let report = values::run(&subject, solver, 150, 3).expect("the solver runs");
        assert!(report.is_equal(), "{report}");
    }
}
