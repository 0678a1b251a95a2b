//! The command `x87show` as a process.

use std::ffi::OsStr;
use std::fs::{self, File};
use std::io::Write;
use std::os::unix::ffi::OsStrExt;
use std::path::PathBuf;
use std::process::{Command, Output, Stdio};

use sleetgate::{Instruction, Lifter, Operand, write_record};

/// The listing of `fld1`, `fchs`, as the program prints it.
const LISTING: &str =
    "n 0 6 9223372036854775808 8191 79\nn 1 6 0 16384 79\nn 2 8 0 1 0\nd 1 0 0 2\n";

/// The listing of no records at all, of a pipe whose first step failed.
const NOTHING: &str = "d 0 0 0\nr 12 0\n";

/// The lines of the notes for a record.
fn record(address: u64, text: &str) -> String {
    let mut bytes = Vec::new();
    write_record(&instruction(address, text), &mut bytes).expect("it is short");
    let digits: String = bytes.iter().map(|byte| format!("{byte:02x}")).collect();
    format!("record {address:x} {digits}\ntext {text}\n")
}

/// A name and the places that it works on.
fn instruction(address: u64, text: &str) -> Instruction {
    let mut words = text.split(' ');
    let name = words.next().unwrap_or_default();
    Instruction::new(address, name, words.map(Operand::register))
}

/// The notes of these two instructions.
fn notes() -> String {
    format!(
        "sleetgate notes 1\nhead all is assumed\n{}{}stack 12 the end\nend\n",
        record(0x10, "fld1"),
        record(0x12, "fchs")
    )
}

/// A file with this text, of one test alone.
fn file(name: &str, text: &str) -> String {
    let path = PathBuf::from(env!("CARGO_TARGET_TMPDIR")).join(format!("x87show-{name}"));
    fs::write(&path, text).expect("it can be written");
    path.to_str().expect("a plain name").to_owned()
}

fn run(words: &[&str], input: &str, out: Stdio) -> Output {
    let mut child = Command::new(env!("CARGO_BIN_EXE_x87show"))
        .args(words)
        .stdin(Stdio::piped())
        .stdout(out)
        .stderr(Stdio::piped())
        .spawn()
        .expect("the command runs");
    // A command that reads nothing may have ended.
    let _ = child
        .stdin
        .take()
        .expect("a pipe")
        .write_all(input.as_bytes());
    child.wait_with_output().expect("the command ends")
}

/// The status, and the texts of both outputs.
fn told(words: &[&str], input: &str) -> (Option<i32>, String, String) {
    let done = run(words, input, Stdio::piped());
    let text = |bytes: &[u8]| String::from_utf8_lossy(bytes).into_owned();
    (done.status.code(), text(&done.stdout), text(&done.stderr))
}

#[test]
fn help_and_version_go_to_standard_output() {
    let (status, out, err) = told(&["--help"], "");
    assert_eq!((status, err.as_str()), (Some(0), ""));
    assert!(out.contains("--names FILE"), "{out}");
    let (status, out, err) = told(&["--version"], "");
    assert_eq!((status, err.as_str()), (Some(0), ""));
    assert_eq!(out, concat!("x87show ", env!("CARGO_PKG_VERSION"), "\n"));
}

#[test]
fn wrong_arguments_end_with_2() {
    let wrong: [&[&str]; 4] = [
        &["--nosuch"],
        &["listing"],
        &["--names"],
        &["--names", "a", "b"],
    ];
    for words in wrong {
        let (status, out, err) = told(words, LISTING);
        assert_eq!((status, out.as_str()), (Some(2), ""), "{words:?}");
        assert!(err.contains("--help"), "{err}");
    }
}

/// Bytes that are no text, as an argument.
#[test]
fn an_argument_may_be_any_bytes() {
    let status = Command::new(env!("CARGO_BIN_EXE_x87show"))
        .arg(OsStr::from_bytes(b"\xff"))
        .stderr(Stdio::null())
        .status();
    assert_eq!(status.expect("the command runs").code(), Some(2));
}

#[test]
fn each_line_has_its_address_with_notes() {
    let names = file("right", &notes());
    let (status, out, err) = told(&["--names", &names], LISTING);
    assert_eq!((status, err.as_str()), (Some(0), ""));
    let expected = "-- all is assumed\n12: -- the end\n12: st(0) = -1.0\n\
                    12: -- below, the stack is as it was on entry\n";
    assert_eq!(out, expected);
    let (status, out, _) = told(&[], LISTING);
    assert_eq!(status, Some(0));
    assert!(out.starts_with("-- without --names: "), "{out}");
}

#[test]
fn what_cannot_be_written_or_read_ends_with_1() {
    let full = || Stdio::from(File::create("/dev/full").expect("it is there"));
    let done = run(&[], LISTING, full());
    assert_eq!(done.status.code(), Some(1));
    let said = String::from_utf8_lossy(&done.stderr).into_owned();
    assert!(said.contains("standard output"), "{said}");
    assert_eq!(run(&["--help"], "", full()).status.code(), Some(1));
    for nowhere in ["/nosuch/names", "/", ""] {
        let (status, out, err) = told(&["--names", nowhere], LISTING);
        assert_eq!((status, out.as_str()), (Some(1), ""), "{nowhere}");
        assert!(err.contains(nowhere), "{err}");
    }
}

/// Whatever the listing, and whatever was in it before.
#[test]
fn a_first_step_that_failed_is_told() {
    let names = file("failed", "sleetgate notes 1\nfailed line 3: no such\nend\n");
    for listing in [LISTING, NOTHING, ""] {
        let (status, out, err) = told(&["--names", &names], listing);
        assert_eq!((status, out.as_str()), (Some(1), ""), "{listing}");
        assert!(err.contains("x87rec failed: line 3: no such"), "{err}");
    }
}

/// Where there are no records, notes of an earlier run do not help.
#[test]
fn a_listing_of_no_records_is_no_empty_stack() {
    let old = file("old", &notes());
    let with = ["--names", old.as_str()];
    let cases: [(&[&str], &str); 4] = [(&with, NOTHING), (&with, ""), (&[], NOTHING), (&[], "")];
    for (words, listing) in cases {
        let (status, out, err) = told(words, listing);
        assert_eq!((status, out.as_str()), (Some(1), ""), "{listing}");
        assert!(err.contains("failed"), "{err}");
    }
}

#[test]
fn notes_of_another_run_are_refused() {
    let whole = notes();
    let other = whole.replace("text fchs", "text fabs");
    assert_ne!(whole, other);
    // What a record is called is not what decides.
    let names = file("same", &other);
    assert_eq!(told(&["--names", &names], LISTING).0, Some(0));
    let twice = "n 0 6 9223372036854775808 8191 79\nn 1 6 0 16384 79\nn 2 8 0 1 0\n\
                 n 3 6 0 16384 79\nn 4 8 2 3 0\nd 1 0 0 4\n";
    let names = file("other", &whole);
    let (status, out, err) = told(&["--names", &names], twice);
    assert_eq!((status, out.as_str()), (Some(1), ""));
    assert!(err.contains("run the pipe again"), "{err}");
}

#[test]
fn notes_that_are_cut_are_refused() {
    let whole = notes();
    let lines = whole.lines().count();
    for kept in 0..lines {
        let cut: String = whole.lines().take(kept).map(|l| format!("{l}\n")).collect();
        let names = file("cut", &cut);
        let (status, out, err) = told(&["--names", &names], LISTING);
        assert_eq!((status, out.as_str()), (Some(1), ""), "{cut}");
        assert!(err.contains(&names), "{err}");
    }
}

#[test]
fn listings_that_are_none_end_with_1() {
    for text in [
        "hello\n",
        "n 0 6 0 16384 79\n",
        "d 1 0 0 7\n",
        "d 0 0 0\nd 0 0 0\n",
    ] {
        let (status, out, err) = told(&[], text);
        assert_eq!((status, out.as_str()), (Some(1), ""), "{text}");
        assert!(err.contains("of the listing"), "{err}");
    }
}

/// Records that fill the rooms of the lifter, their listing, and the
/// address of the one that is refused.
fn filling() -> (String, String, u64) {
    let text = "fcomi st(0) st(1)";
    let mut lifter = Lifter::with_capacity(1_024, 256);
    let mut records = String::new();
    let (mut address, mut place) = (0x100, 0);
    let refusal = loop {
        let record = record(address, text);
        records += &record;
        if let Err(refusal) = lifter.lift(&instruction(address, text)) {
            break refusal.number();
        }
        let digits = record.split([' ', '\n']).nth(2).expect("the digits");
        place += digits.len() / 2;
        address += 2;
    };
    let listing = format!("{}r {refusal} {place}\n", listing(&lifter));
    (records, listing, address)
}

/// What the program prints of a lift.
fn listing(lifter: &Lifter) -> String {
    let row =
        |mark: char, number: usize, row: [u64; 4]| format!("{mark} {number} {}\n", joined(&row));
    let nodes = lifter.nodes().iter().enumerate();
    let statements = lifter.statements().iter().enumerate();
    let nodes = nodes.map(|(at, node)| row('n', at, node.row()));
    let statements = statements.map(|(at, statement)| row('s', at, statement.row()));
    let state = lifter.state();
    let counts = [state.depth, state.inputs, state.temporaries];
    let words = [&counts[..], lifter.stack()].concat();
    let rows: String = nodes.chain(statements).collect();
    format!("{rows}d {}\n", joined(&words))
}

fn joined(words: &[u64]) -> String {
    let words: Vec<String> = words.iter().map(u64::to_string).collect();
    words.join(" ")
}

#[test]
fn a_refusal_names_the_instruction_and_what_to_do() {
    let (records, listing, address) = filling();
    let names = file("refusal", &format!("sleetgate notes 1\n{records}end\n"));
    let (status, out, err) = told(&["--names", &names], &listing);
    assert_eq!((status, err.as_str()), (Some(1), ""));
    let last: Vec<&str> = out.lines().rev().take(2).collect();
    assert!(
        last[1].starts_with(&format!("{address:x}: -- fcomi")),
        "{last:?}"
    );
    assert!(last[1].contains("--path"), "{last:?}");
    assert!(
        last[0].contains("nothing is known of what follows"),
        "{last:?}"
    );
}
