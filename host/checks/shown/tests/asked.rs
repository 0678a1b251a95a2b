//! The questions of the tour, put to z3: each answer is the stored one.

use std::fs;
use std::io::Write as _;
use std::path::{Path, PathBuf};
use std::process::Command;

fn tour() -> PathBuf {
    Path::new(env!("CARGO_MANIFEST_DIR")).join("../../tools/tour")
}

/// Past the test harness's capture.
fn left_out(why: &str) {
    // A line that cannot be written is no reason to fail.
    let _ = writeln!(std::io::stderr(), "left out: {why}");
}

/// The questions and answers, without the values of a counterexample, which
/// are the solver's choice.
fn answers(text: &str) -> Vec<&str> {
    text.lines()
        .filter(|line| !line.trim_start().starts_with('('))
        .collect()
}

/// What `ask.sh` prints, where the library and z3 are at hand.
fn asked() -> Option<String> {
    let output = Command::new("bash")
        .arg(tour().join("ask.sh"))
        .output()
        .expect("bash runs");
    let told = String::from_utf8(output.stdout).expect("text");
    let said = String::from_utf8_lossy(&output.stderr).into_owned();
    if output.status.success() {
        return Some(told);
    }
    assert!(said.contains("is not there"), "{said}");
    left_out(said.trim());
    None
}

#[test]
fn the_answers_are_as_stored() {
    let stored = fs::read_to_string(tour().join("asked.txt")).expect("the file is there");
    assert_eq!(answers(&stored).len(), 4);
    if let Some(told) = asked() {
        assert_eq!(answers(&told), answers(&stored));
    }
}

/// What README shows of the answers is stored.
#[test]
fn readme_shows_what_is_stored() {
    let path = Path::new(env!("CARGO_MANIFEST_DIR")).join("../../../README.md");
    let readme = fs::read_to_string(path).expect("the file is there");
    let stored = fs::read_to_string(tour().join("asked.txt")).expect("the file is there");
    assert!(readme.contains(&stored), "{stored}");
}
