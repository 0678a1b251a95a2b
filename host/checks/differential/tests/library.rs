//! The static library against the Rust, its rules said plainly, the
//! solvers and the processor, in a smaller fixed part of the full runs.
//! Fails where the library is not built.

use differential::report::Report;
use differential::solver::Solver;
use differential::subject::Library;
use differential::{
    NO_ORACLE, checks, classify, fewer, images, left_out, lift, oracle, processor, record_lifts,
    records, values,
};
use plain::Instruction;
use sleetgate_sys::untested;

fn equal(report: &Report) {
    println!("{report}");
    assert!(report.is_equal(), "{report}");
}

/// Equal, and each detail was expected often.
fn equal_with_details(report: &Report) {
    equal(report);
    assert!(
        report.details.iter().all(|&count| count > fewer(30)),
        "{report}"
    );
}

#[test]
fn classify_why_and_effect_answer_as_the_rust() {
    assert!(sleetgate_sys::at_hand(), "{}", sleetgate_sys::MISSING);
    if !oracle::at_hand() {
        left_out(NO_ORACLE);
        return;
    }
    equal_with_details(&classify::run(&Library, fewer(200_000), 2));
}

#[test]
fn records_are_read_as_the_manual_says() {
    assert!(sleetgate_sys::at_hand(), "{}", sleetgate_sys::MISSING);
    equal(&records::run(&Library, fewer(200_000), 2));
}

#[test]
fn lift_answers_as_the_rust() {
    assert!(sleetgate_sys::at_hand(), "{}", sleetgate_sys::MISSING);
    if !oracle::at_hand() {
        left_out(NO_ORACLE);
        return;
    }
    equal_with_details(&lift::run(&Library, fewer(2_000), 2));
}

#[test]
fn a_record_is_lifted_as_by_two_calls() {
    assert!(sleetgate_sys::at_hand(), "{}", sleetgate_sys::MISSING);
    equal_with_details(&record_lifts::run(&Library, fewer(100_000), 2));
}

#[test]
fn sorts_are_checked_as_the_manual_says() {
    assert!(sleetgate_sys::at_hand(), "{}", sleetgate_sys::MISSING);
    let report = checks::run(&Library, fewer(50_000), 2);
    equal(&report);
    for (name, count) in report.notes {
        assert!(count > fewer(100), "{name}: {count}");
    }
}

#[test]
fn images_are_the_processors() {
    assert!(sleetgate_sys::at_hand(), "{}", sleetgate_sys::MISSING);
    processor::tell_emulated();
    let report = images::run(&Library, fewer(300_000), 2);
    equal(&report);
    for (name, count) in report.notes {
        assert!(count > fewer(1_000), "{name}: {count}");
    }
}

/// The values of some lists by a solver, where it is at hand.
fn values_by(solver: Solver) {
    assert!(sleetgate_sys::at_hand(), "{}", sleetgate_sys::MISSING);
    if !solver.at_hand() {
        left_out(&solver.missing());
        return;
    }
    let report = values::run(&Library, solver, 500, 2).expect("the solver runs");
    equal(&report);
    for (name, count) in report.notes {
        assert!(count > 100, "{name}: {count}");
    }
}

#[test]
fn values_are_those_of_z3() {
    values_by(Solver::Z3);
}

#[test]
fn values_are_those_of_cvc5() {
    values_by(Solver::Cvc5);
}

#[test]
fn the_binding_of_formulas_tests_lengths_first() {
    let (mut out, mut image) = ([7; 16], [7; 10]);
    assert_eq!(sleetgate_sys::image_read(&[0; 10], 0, 0, &mut out[..1]), 10);
    assert_eq!(sleetgate_sys::image_write(&mut image[1..], 0, 0), 10);
    assert_eq!(sleetgate_sys::check(&[], 0, &mut []), 10);
    assert_eq!(sleetgate_sys::evaluate(&[], 0, &[], &mut out, &mut []), 10);
    let (state, told) = out.split_at_mut(13);
    assert_eq!(
        sleetgate_sys::lift_record(&[], 0, state, &mut [], &mut [], &mut told[..2]),
        10
    );
    assert_eq!((out, image), ([7; 16], [7; 10]));
}

#[test]
fn the_binding_calls_the_library() {
    assert!(sleetgate_sys::at_hand(), "{}", sleetgate_sys::MISSING);
    let (mut out, mut image) = ([7; 16], [7; 11]);
    let one = [0, 0, 0, 0, 0, 0, 0, 0x80, 0xff, 0x3f];
    assert_eq!(sleetgate_sys::image_read(&one, 0, 0, &mut out), 0);
    assert_eq!(out[..3], [0x8000_0000_0000_0000, 0x1fff, 7]);
    assert_eq!(sleetgate_sys::image_write(&mut image, out[0], out[1]), 0);
    assert_eq!((&image[..10], image[10]), (one.as_slice(), 7));
    let nodes = [6, 5, 0, 3, 14, 0, 2, 1, 9, 0, 1, 0];
    assert_eq!(sleetgate_sys::check(&nodes, 3, &mut out), 8);
    assert_eq!(out[..2], [2, 0x1fff]);
    let mut column = [7; 5];
    let number = sleetgate_sys::evaluate(&nodes, 2, &[0; 4], &mut column, &mut out);
    assert_eq!((number, out[0], column), (0, 0, [5, 0, 2, 0, 7]));
    let mut state = [0; 13];
    let number =
        sleetgate_sys::lift_record(&[0x87, 0x45], 0, &mut state, &mut [], &mut [], &mut out);
    assert_eq!(
        (number, &out[..3], state),
        (0, [2, 0, 0].as_slice(), [0; 13])
    );
    let fprem = Instruction::new(9, b"fprem", &[]).to_flat();
    assert_eq!((sleetgate_sys::why(&fprem, &mut out), out[0]), (1, 21));
    let (mut statements, mut detail) = ([7; 4], [7; 2]);
    let number = sleetgate_sys::lift(&fprem, &mut state, &mut [], &mut statements, &mut detail);
    assert_eq!((number, statements, detail), (1, [6, 1, 9, 21], [21, 7]));
}

#[test]
fn the_binding_tests_lengths_first() {
    let mut out = [7; 16];
    assert_eq!(sleetgate_sys::classify(&[0; 177], &mut out[..7]), 10);
    assert_eq!(sleetgate_sys::why(&[0; 177], &mut []), 10);
    assert_eq!(sleetgate_sys::effect(&[0; 177], &mut out[..6]), 10);
    let mut flat = [7; 177];
    assert_eq!(
        sleetgate_sys::read_record(&[], 0, &mut flat, &mut out[..1]),
        10
    );
    let mut lift = |flat: &[u8], words: usize, told: &mut [u64]| {
        sleetgate_sys::lift(flat, &mut out[..words], &mut [], &mut [], told)
    };
    let mut told = [7; 3];
    assert_eq!(lift(&flat, 16, &mut []), 10);
    assert_eq!(lift(&flat[..176], 16, &mut told[..1]), 10);
    assert_eq!(lift(&flat, 12, &mut told[1..2]), 10);
    assert_eq!((out, flat, told), ([7; 16], [7; 177], [0, 0, 7]));
}

/// A call that is lent words to tell.
type Call = fn(&mut [u64]) -> u32;

/// How many words each call tells, and the call with another slice too
/// short, by the binding and by the library.
const TOO_SHORT: [(usize, [Call; 2]); 8] = [
    (
        8,
        [
            |out| sleetgate_sys::classify(&[0; 176], out),
            |out| untested::classify(&[0; 176], out),
        ],
    ),
    (
        1,
        [
            |out| sleetgate_sys::why(&[0; 176], out),
            |out| untested::why(&[0; 176], out),
        ],
    ),
    (
        7,
        [
            |out| sleetgate_sys::effect(&[0; 176], out),
            |out| untested::effect(&[0; 176], out),
        ],
    ),
    (
        2,
        [
            |out| sleetgate_sys::read_record(&[], 0, &mut [0; 176], out),
            |out| untested::read_record(&[], 0, &mut [0; 176], out),
        ],
    ),
    (
        1,
        [
            |out| sleetgate_sys::lift(&[0; 176], &mut [0; 13], &mut [], &mut [], out),
            |out| untested::lift(&[0; 176], &mut [0; 13], &mut [], &mut [], out),
        ],
    ),
    (
        1,
        [
            |out| sleetgate_sys::lift(&[0; 177], &mut [0; 12], &mut [], &mut [], out),
            |out| untested::lift(&[0; 177], &mut [0; 12], &mut [], &mut [], out),
        ],
    ),
    (
        3,
        [
            |out| sleetgate_sys::lift_record(&[], 0, &mut [0; 12], &mut [], &mut [], out),
            |out| untested::lift_record(&[], 0, &mut [0; 12], &mut [], &mut [], out),
        ],
    ),
    (
        2,
        [
            |out| sleetgate_sys::image_read(&[0; 9], 0, 0, out),
            |out| untested::image_read(&[0; 9], 0, 0, out),
        ],
    ),
];

#[test]
fn zeros_are_told_beside_10() {
    for (words, both) in TOO_SHORT {
        for call in both {
            let mut out = [7; 16];
            assert_eq!(call(&mut out[..words - 1]), 10);
            assert_eq!(out, [7; 16]);
            assert_eq!(call(&mut out), 10);
            assert_eq!(out[..words], [0; 16][..words]);
            assert_eq!(out[words..], [7; 16][words..]);
        }
    }
}
