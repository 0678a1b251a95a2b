//! The command `x87rec` as a process.

use std::ffi::OsStr;
use std::fs::{self, File};
use std::io::Write;
use std::os::unix::ffi::OsStrExt;
use std::path::PathBuf;
use std::process::{Command, Output, Stdio};

use notes::Notes;

const FUNCTION: &str = "10 fld QWORD PTR [esp+0x4]\n14 jne 18\n16 fchs\n18 ret\n";

/// A file of one test alone.
fn file(name: &str) -> PathBuf {
    PathBuf::from(env!("CARGO_TARGET_TMPDIR")).join(format!("x87rec-{name}"))
}

/// Run the command with these arguments on an input.
fn run(words: &[&str], input: &[u8], out: Stdio) -> Output {
    let mut child = Command::new(env!("CARGO_BIN_EXE_x87rec"))
        .args(words)
        .stdin(Stdio::piped())
        .stdout(out)
        .stderr(Stdio::piped())
        .spawn()
        .expect("the command runs");
    // A command that reads nothing may have ended.
    let _ = child.stdin.take().expect("a pipe").write_all(input);
    child.wait_with_output().expect("the command ends")
}

/// The status, and the texts of both outputs.
fn told(words: &[&str], input: &str) -> (Option<i32>, String, String) {
    let done = run(words, input.as_bytes(), Stdio::piped());
    let text = |bytes: &[u8]| String::from_utf8_lossy(bytes).into_owned();
    (done.status.code(), text(&done.stdout), text(&done.stderr))
}

fn full() -> Stdio {
    File::create("/dev/full").expect("it is there").into()
}

/// What the notes in a file say went wrong.
fn failed(file: &PathBuf) -> Option<String> {
    let text = fs::read_to_string(file).expect("the notes are written");
    text.parse::<Notes>().expect("they are notes").failed
}

#[test]
fn help_and_version_go_to_standard_output() {
    let (status, out, err) = told(&["--help"], "");
    assert_eq!((status, err.as_str()), (Some(0), ""));
    for option in [
        "--names",
        "--function",
        "--path",
        "--take",
        "--assume-reset",
    ] {
        assert!(out.contains(option), "{option}");
    }
    let (status, out, err) = told(&["--version"], "");
    assert_eq!((status, err.as_str()), (Some(0), ""));
    assert_eq!(out, concat!("x87rec ", env!("CARGO_PKG_VERSION"), "\n"));
}

#[test]
fn wrong_arguments_end_with_2_and_write_nothing() {
    let wrong: [&[&str]; 8] = [
        &["--nosuch"],
        &["text.objdump"],
        &["--names"],
        &["--function"],
        &["--take"],
        &["--take", "there"],
        &["--take", ""],
        &["--take", "14=yes"],
    ];
    for words in wrong {
        let (status, out, err) = told(words, FUNCTION);
        assert_eq!((status, out.as_str()), (Some(2), ""), "{words:?}");
        assert!(err.contains("--help"), "{words:?}: {err}");
    }
}

/// Bytes that are no text, as an argument.
#[test]
fn an_argument_may_be_any_bytes() {
    let status = Command::new(env!("CARGO_BIN_EXE_x87rec"))
        .arg(OsStr::from_bytes(b"\xff"))
        .stderr(Stdio::null())
        .status();
    assert_eq!(status.expect("the command runs").code(), Some(2));
}

/// The counts are no part of the result.
#[test]
fn standard_error_may_be_full() {
    let mut child = Command::new(env!("CARGO_BIN_EXE_x87rec"))
        .stdin(Stdio::piped())
        .stdout(Stdio::null())
        .stderr(full())
        .spawn()
        .expect("the command runs");
    let mut input = child.stdin.take().expect("a pipe");
    input.write_all(FUNCTION.as_bytes()).expect("it is read");
    drop(input);
    assert_eq!(child.wait().expect("it ends").code(), Some(0));
}

#[test]
fn records_go_to_standard_output_and_counts_to_standard_error() {
    let (status, out, err) = told(&["--path"], FUNCTION);
    assert_eq!(status, Some(0));
    assert!(out.contains("fld") && out.contains("fchs"), "{out:?}");
    assert!(err.contains("4 instructions, 2 records"), "{err}");
}

#[test]
fn wrong_texts_end_with_1_and_the_notes_say_so() {
    let names = file("wrong");
    let path = names.to_str().expect("a plain name");
    let way = ["--names", path, "--path", "--take", "99"];
    let function = ["--names", path, "--function", "g"];
    let cases: [(&[&str], &str, &str); 8] = [
        (&["--names", path], "", "no instruction"),
        (
            &["--names", path],
            "\nf.o: file format elf32-i386\n",
            "no instruction",
        ),
        (&["--names", path], "no disassembly\n", "line 1: "),
        (&["--names", path], "10 fld1\n11 fld %st(0)\n", "AT&T"),
        (&["--names", path], "10 fld1\n11 fadd st,\n", "line 2: "),
        (&way, FUNCTION, "99"),
        (&function, FUNCTION, "no function `g`"),
        (&["--names", path, "--path"], "10 fld1\n10 fldz\n", "twice"),
    ];
    for (words, text, said) in cases {
        // Notes of an earlier run, which must not stay.
        assert_eq!(told(&["--names", path], FUNCTION).0, Some(0));
        assert_eq!(failed(&names), None);
        let (status, out, err) = told(words, text);
        assert_eq!((status, out.as_str()), (Some(1), ""), "{text}");
        let why = failed(&names).expect("the notes say so");
        assert!(err.contains(said) && why.contains(said), "{err} {why}");
    }
}

#[test]
fn bytes_that_are_no_text_end_with_1() {
    let names = file("bytes");
    let path = names.to_str().expect("a plain name");
    let done = run(&["--names", path], b"10 fld1\n\xff\xfe\n", Stdio::piped());
    assert_eq!((done.status.code(), done.stdout), (Some(1), Vec::new()));
    let why = failed(&names).expect("the notes say so");
    assert!(why.contains("standard input"), "{why}");
}

#[test]
fn what_cannot_be_written_ends_with_1() {
    let names = file("unwritten");
    let path = names.to_str().expect("a plain name");
    let done = run(&["--names", path], FUNCTION.as_bytes(), full());
    assert_eq!(done.status.code(), Some(1));
    let why = failed(&names).expect("the notes say so");
    assert!(why.contains("standard output"), "{why}");
    assert_eq!(run(&["--help"], b"", full()).status.code(), Some(1));
    for nowhere in ["/dev/full", "/nosuch/names", ""] {
        let (status, out, err) = told(&["--names", nowhere], FUNCTION);
        // Without notes there are no records.
        assert_eq!((status, out.as_str()), (Some(1), ""), "{nowhere}");
        assert!(err.contains(nowhere), "{err}");
    }
}

#[test]
fn too_many_records_end_with_1_and_advice() {
    let text: String = (0..2_000).map(|at| format!("{at:x} fabs\n")).collect();
    let (status, out, err) = told(&[], &text);
    assert_eq!((status, out.as_str()), (Some(1), ""));
    assert!(
        err.contains("--function") && err.contains("--path"),
        "{err}"
    );
}

#[test]
fn a_text_without_x87_has_no_records() {
    let done = run(&["--path"], b"10 mov eax,ebx\n12 ret\n", Stdio::piped());
    assert_eq!(done.status.code(), Some(0));
    let said = String::from_utf8_lossy(&done.stderr).into_owned();
    assert!(said.contains("2 instructions, 0 records"), "{said}");
    let mut end = Vec::new();
    sleetgate::write_end(&mut end);
    assert_eq!(done.stdout, end);
}
