//! Formulas as SMT-LIB text: the library against the rules said plainly,
//! against both solvers and against what is stored, in a smaller fixed part
//! of the full runs.

use std::io;

use differential::checks;
use differential::formulas::random;
use differential::instructions::Grid;
use differential::report::Report;
use differential::rng::Rng;
use differential::solver::Solver;
use differential::subject::{Library, Plain};
use differential::{every_text, fewer, left_out, stored_texts, text_reads, text_values, texts};
use plain::smt::{self, Read};
use sleetgate::{Nodes, Refusal, smt_lib};

fn equal(report: &Report) {
    println!("{report}");
    assert!(report.is_equal(), "{report}");
}

/// Equal, and each of these answers is expected often.
fn equal_with(report: &Report, numbers: &[u32]) {
    equal(report);
    for &number in numbers {
        assert!(report.expecting(number) > fewer(100), "{report}");
    }
}

/// The library is there.
#[track_caller]
fn at_hand() {
    assert!(sleetgate_sys::at_hand(), "{}", sleetgate_sys::MISSING);
}

#[test]
fn texts_are_written_as_the_manual_says() {
    at_hand();
    equal_with(&texts::run(&Library, 5_000, 2), &[0, 8, 10, 31, 32]);
}

#[test]
fn texts_are_read_by_the_definition_of_the_subset() {
    at_hand();
    equal_with(
        &text_reads::run(&Library, fewer(40_000), 2),
        &[0, 6, 10, 41],
    );
}

#[test]
fn every_text_of_small_universes_is_read() {
    at_hand();
    let report = every_text::run(&Library, fewer(40_000), 2);
    equal_with(&report, &[0, 41]);
    for (name, count) in report.notes {
        assert!(count > fewer(100), "{name}: {count}");
    }
}

/// The binding's answer, as the number and the word of the call below it.
fn told<T>(answer: Result<T, Refusal>) -> Result<T, (u32, usize)> {
    answer.map_err(|refusal| match refusal {
        Refusal::Sort { node } => (refusal.number(), node),
        Refusal::Syntax { place } => (refusal.number(), place),
        _ => (refusal.number(), 0),
    })
}

#[test]
fn the_binding_writes_as_the_manual_says() {
    at_hand();
    let (grid, mut rng) = (Grid::default(), Rng::new(8));
    for _ in 0..300 {
        let case = checks::case(&grid, &mut rng);
        let nodes = Nodes::new(&case.nodes);
        let root = rng.below(nodes.len() + 2);
        let plain = smt::write(&case.nodes, nodes.len(), root, usize::MAX);
        let plain = plain.map_err(|verdict| (verdict.number, verdict.node as usize));
        assert_eq!(told(smt_lib::write(nodes, root as u64)), plain);
    }
}

#[test]
fn the_binding_reads_by_the_definition_of_the_subset() {
    at_hand();
    let mut rng = Rng::new(8);
    for _ in 0..300 {
        let list = random(&mut rng, 12);
        let mut text = smt::write(&list.nodes, list.len(), 11, usize::MAX).expect("written");
        if rng.one_in(2) {
            text.truncate(rng.below(text.len()));
        }
        let plain = match smt::read(text.as_bytes(), usize::MAX) {
            Read::Rows(rows) => Ok(rows),
            Read::Stop(place) => Err((plain::NO_TEXT, place)),
            Read::TooFew => unreachable!("there is room"),
        };
        let read = smt_lib::read(&text).map(|nodes| nodes.iter().map(|n| n.row()).collect());
        assert_eq!(told(read), plain);
    }
}

#[test]
fn the_binding_of_texts_tests_lengths_first() {
    let (mut text, mut nodes) = ([7; 9], [7; 9]);
    assert_eq!(sleetgate_sys::smt_write(&[], 0, 0, &mut text, &mut []), 10);
    assert_eq!(sleetgate_sys::smt_read(&[], &mut nodes, &mut []), 10);
    assert_eq!((text, nodes), ([7; 9], [7; 9]));
}

#[test]
fn stored_texts_are_written_and_read() {
    at_hand();
    equal(&stored_texts::written(&Plain));
    equal(&stored_texts::read(&Plain));
    equal(&stored_texts::written(&Library));
    equal(&stored_texts::read(&Library));
}

#[test]
fn stored_texts_mean_what_the_solvers_said() {
    at_hand();
    equal(&stored_texts::values(&Library));
}

#[test]
fn stored_texts_are_what_the_solvers_say_today() {
    for solver in Solver::ALL {
        if !solver.at_hand() {
            left_out(&solver.missing());
            return;
        }
    }
    for (name, content) in stored_texts::files().expect("the solvers run") {
        let stored = std::fs::read_to_string(stored_texts::path(&name));
        let stored = stored.expect("it is stored");
        assert_eq!(stored, content, "write it anew by: store_texts");
    }
}

/// What a run says with a solver, where that is at hand.
fn by_solver(solver: Solver, run: impl Fn(Solver) -> io::Result<Report>) {
    at_hand();
    if solver.at_hand() {
        equal(&run(solver).expect("the solver runs"));
    } else {
        left_out(&solver.missing());
    }
}

fn meaning(solver: Solver) -> io::Result<Report> {
    text_values::run(&Library, &Library, solver, 120, 2)
}

fn taken(solver: Solver) -> io::Result<Report> {
    text_values::taken(&Library, solver, 60, 2)
}

#[test]
fn texts_mean_what_the_evaluator_says_by_z3() {
    by_solver(Solver::Z3, meaning);
}

#[test]
fn texts_mean_what_the_evaluator_says_by_cvc5() {
    by_solver(Solver::Cvc5, meaning);
}

#[test]
fn z3_takes_texts_as_they_are() {
    by_solver(Solver::Z3, taken);
}

#[test]
fn cvc5_takes_texts_as_they_are() {
    by_solver(Solver::Cvc5, taken);
}
