//! The stored answers: they are what the oracle says today, and the
//! library says them too. Where they are not stored yet, a line says so.

use differential::report::Report;
use differential::solver::Solver;
use differential::subject::Library;
use differential::{NO_ORACLE, left_out, oracle, sample, sample_formulas, stored, stored_formulas};

/// The stored file, if there is one.
fn file(name: &str) -> Option<Vec<u8>> {
    let found = stored::file(name);
    if found.is_none() {
        left_out(&format!("{name} is not stored yet"));
    }
    found
}

fn equal(report: &Report) {
    println!("{report}");
    assert!(report.is_equal(), "{report}");
}

#[test]
fn stored_instructions_are_what_sample_writes() {
    if !oracle::at_hand() {
        left_out(NO_ORACLE);
        return;
    }
    if let Some(found) = file("instructions.bin") {
        assert!(found == sample::instructions(), "write it anew by: sample");
    }
}

#[test]
fn stored_records_are_what_sample_writes() {
    if let Some(found) = file("records.bin") {
        assert!(found == sample::records(), "write it anew by: sample");
    }
}

#[cfg(not(no_oracle))]
#[test]
fn stored_lifts_are_what_sample_writes() {
    if let Some(found) = file("lifts.bin") {
        let written = differential::sample_lifts::lifts();
        assert!(found == written, "write it anew by: sample");
    }
}

#[test]
fn stored_checks_and_images_are_what_sample_writes() {
    let checks = stored::file("checks.bin").expect("it is stored");
    assert!(
        checks == sample_formulas::checks(),
        "write it anew by: sample"
    );
    let images = stored::file("images.bin").expect("it is stored");
    assert!(
        images == sample_formulas::images(),
        "write it anew by: sample"
    );
}

#[test]
fn stored_values_are_what_z3_says() {
    if !Solver::Z3.at_hand() {
        left_out(&Solver::Z3.missing());
        return;
    }
    let values = stored::file("values.bin").expect("it is stored");
    let written = sample_formulas::values().expect("z3 runs");
    assert!(values == written, "write it anew by: sample");
}

/// Equal, and each of these answers is among the stored ones.
fn equal_with(report: &Report, numbers: &[u32]) {
    equal(report);
    for &number in numbers {
        assert!(report.expecting(number) >= 30, "{report}");
    }
}

#[test]
fn the_library_gives_the_stored_answers_on_formulas() {
    assert!(sleetgate_sys::at_hand(), "{}", sleetgate_sys::MISSING);
    let file = |name| stored::file(name).expect("it is stored");
    let checks = stored_formulas::checks(&Library, &file("checks.bin"));
    equal_with(&checks, &[0, 8, 10]);
    let values = stored_formulas::values(&Library, &file("values.bin"));
    equal_with(&values, &[0, 8, 9, 10]);
    let images = stored_formulas::images(&Library, &file("images.bin"));
    equal_with(&images, &[0, 9]);
}

/// Equal, and each detail is among the stored ones.
fn equal_with_details(report: &Report) {
    equal(report);
    assert!(report.details.iter().all(|&count| count >= 20), "{report}");
}

#[test]
fn the_library_gives_the_stored_answers() {
    assert!(sleetgate_sys::at_hand(), "{}", sleetgate_sys::MISSING);
    if let Some(found) = file("instructions.bin") {
        equal_with_details(&stored::instructions(&Library, &found));
    }
    if let Some(found) = file("records.bin") {
        equal(&stored::records(&Library, &found));
    }
    if let Some(found) = file("lifts.bin") {
        equal_with_details(&stored::lifts(&Library, &found));
    }
}
