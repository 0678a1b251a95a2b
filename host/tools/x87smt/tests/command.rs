//! The command `x87smt` as a process.

use std::ffi::OsStr;
use std::fs::File;
use std::io::Write;
use std::os::unix::ffi::OsStrExt;
use std::process::{Command, Output, Stdio};

use sleetgate::{
    Instruction, Lifter, MOST_BYTES, Operand, Place, smt_lib, write_end, write_record,
};

/// Memory of a width at an address, without a slot.
fn memory(width: u16, address: u32) -> Operand {
    Operand::memory(width, Place::Address(address))
}

/// A slot of 32 bits at an address.
fn slot(slot: u32, address: u32) -> Operand {
    Operand::memory(32, Place::Slot { address, slot })
}

/// Instructions at 10, 12, 14 and so on.
fn instructions(names: &[(&str, &[Operand])]) -> Vec<Instruction> {
    let addresses = (0x10..).step_by(2);
    let all = addresses.zip(names);
    all.map(|(address, (name, operands))| Instruction::new(address, *name, operands.to_vec()))
        .collect()
}

/// The records of some instructions, and the end mark.
fn records(names: &[(&str, &[Operand])]) -> Vec<u8> {
    let mut bytes = Vec::new();
    for insn in instructions(names) {
        write_record(&insn, &mut bytes).expect("it is short");
    }
    write_end(&mut bytes);
    bytes
}

fn run(words: &[&str], input: &[u8], out: Stdio) -> Output {
    let mut child = Command::new(env!("CARGO_BIN_EXE_x87smt"))
        .args(words)
        .stdin(Stdio::piped())
        .stdout(out)
        .stderr(Stdio::piped())
        .spawn()
        .expect("the command runs");
    // A command that reads nothing may have ended.
    let _ = child.stdin.take().expect("a pipe").write_all(input);
    child.wait_with_output().expect("the command ends")
}

/// The status, and the texts of both outputs.
fn told(words: &[&str], input: &[u8]) -> (Option<i32>, String, String) {
    let done = run(words, input, Stdio::piped());
    let text = |bytes: &[u8]| String::from_utf8_lossy(bytes).into_owned();
    (done.status.code(), text(&done.stdout), text(&done.stderr))
}

/// The text and the words of a formula that is written.
fn written(words: &[&str], input: &[u8]) -> (String, Vec<String>) {
    let (status, out, err) = told(words, input);
    assert_eq!(status, Some(0), "{err}");
    let said = err.lines().map(|line| line.strip_prefix("x87smt: "));
    let said = said.map(|line| line.expect("each line says who speaks").to_owned());
    (out, said.collect())
}

/// What is said of a formula that is not written.
fn refused(words: &[&str], input: &[u8]) -> String {
    let (status, out, err) = told(words, input);
    assert_eq!((status, out.as_str()), (Some(1), ""), "{words:?}");
    err
}

#[test]
fn help_and_version_go_to_standard_output() {
    let (status, out, err) = told(&["--help"], b"");
    assert_eq!((status, err.as_str()), (Some(0), ""));
    assert!(out.contains("--statement N"), "{out}");
    let (status, out, err) = told(&["--version"], b"");
    assert_eq!((status, err.as_str()), (Some(0), ""));
    assert_eq!(out, concat!("x87smt ", env!("CARGO_PKG_VERSION"), "\n"));
}

#[test]
fn wrong_arguments_end_with_2() {
    let wrong: [&[&str]; 8] = [
        &[],
        &["--read", "one", "two"],
        &["--nosuch"],
        &["--place"],
        &["--place", "-1"],
        &["--node", "x0_1_0"],
        &["--node", "0", "--place", "0"],
        &["--statement", "18446744073709551616"],
    ];
    for words in wrong {
        let (status, out, err) = told(words, &records(&[("fld1", &[])]));
        assert_eq!((status, out.as_str()), (Some(2), ""), "{words:?}");
        assert!(err.contains("--help"), "{err}");
    }
}

/// Bytes that are no text, as an argument.
#[test]
fn an_argument_may_be_any_bytes() {
    let status = Command::new(env!("CARGO_BIN_EXE_x87smt"))
        .arg(OsStr::from_bytes(b"\xff"))
        .stderr(Stdio::null())
        .status();
    assert_eq!(status.expect("the command runs").code(), Some(2));
}

/// The three ways to ask for a node give the text that the library writes.
#[test]
fn the_text_is_the_library_s() {
    let names: [(&str, &[Operand]); 3] = [
        ("fld", &[memory(32, 7)]),
        ("fadd", &[Operand::st(1)]),
        ("fst", &[memory(64, 8)]),
    ];
    let mut lifter = Lifter::default();
    for insn in instructions(&names) {
        lifter.lift(&insn).expect("there is room");
    }
    let text = |node| smt_lib::write(lifter.nodes(), node).expect("it is written");
    let (top, stored) = (lifter.stack()[0], lifter.nodes().len() as u64 - 1);
    let input = records(&names);
    assert_eq!(written(&["--place", "0"], &input).0, text(top));
    assert_eq!(written(&["--statement", "1"], &input).0, text(stored));
    for node in 0..=stored {
        let number = node.to_string();
        assert_eq!(written(&["--node", &number], &input).0, text(node));
    }
}

#[test]
fn each_constant_is_explained() {
    let input = records(&[
        ("fld", &[memory(80, 7)]),
        ("faddp", &[]),
        ("fadd", &[slot(5, 8)]),
        ("fcmovb", &[Operand::st(0), Operand::st(1)]),
    ]);
    let (_, said) = written(&["--place", "0"], &input);
    let constants = [
        "x0_2_0 is the 80 bits at address number 7, as loaded at 10",
        "x1_1_0 is any pattern, for the case that the 80 bits loaded at 10 hold no number",
        "x18_1_1 is what stood at place 0 of the stack before the first record; nobody knows it",
        "x23_3_5 is slot 5, the 32 bits at address number 8, as loaded at 14",
        "x31_1_2 is what stood at place 1 of the stack before the first record; nobody knows it",
        "x32_5_0 is CF as it is at 16; nothing that was lifted sets it",
    ];
    assert_eq!(said[..constants.len()], constants);
    assert_eq!(said.len(), constants.len() + 2, "{said:?}");
    assert!(said[6].contains("of NaN it may be any pattern"), "{said:?}");
    assert!(
        said[7].starts_with("arithmetic rounds as after a reset"),
        "{said:?}"
    );
}

/// What statements say of flags and of the status word is not in a text.
#[test]
fn who_set_a_flag_is_said() {
    let compare: (&str, &[Operand]) = ("fcomi", &[Operand::st(0), Operand::st(1)]);
    let moves: (&str, &[Operand]) = ("fcmove", &[Operand::st(0), Operand::st(1)]);
    let input = records(&[compare, moves]);
    let (text, said) = written(&["--place", "0"], &input);
    assert!(
        text.contains("(declare-fun x13_5_2 () (_ BitVec 1))"),
        "{text}"
    );
    let flag = "x13_5_2 is ZF as it is at 12; statement 1 sets it to node 8, which the text does \
                not say";
    assert!(said.contains(&flag.to_owned()), "{said:?}");
    let input = records(&[compare, ("fprem", &[]), moves]);
    let (_, said) = written(&["--place", "0"], &input);
    let flag = "ZF as it is at 14; what is declined at 12 may have set it";
    assert!(said.iter().any(|line| line.ends_with(flag)), "{said:?}");
    let input = records(&[("fcom", &[]), ("fnstsw", &[Operand::register("ax")])]);
    let (_, said) = written(&["--statement", "1"], &input);
    let status = "x22_4_0 is the status word as it is at 12; statement 0 sets it to node 21, \
                  which the text does not say";
    assert_eq!(said, [status]);
}

#[test]
fn declines_are_said_and_where_a_formula_begins_behind_one() {
    let input = records(&[
        ("fld", &[memory(32, 1)]),
        ("fprem", &[]),
        ("fstp", &[memory(32, 2)]),
    ]);
    let (text, said) = written(&["--statement", "2"], &input);
    assert!(
        text.starts_with("(declare-fun x4_1_0 () (_ BitVec 79))\n"),
        "{text}"
    );
    let declined = "fprem at 12 is declined: the lifter does not know its name; what it does is in \
                    no formula, and the stack is forgotten there";
    let begins = "x4_1_0 is what stood at place 0 of the stack behind the decline at 12; nobody \
                  knows it, and what was computed before the decline is not in the text";
    assert_eq!(said[..2], [declined, begins]);
    assert!(refused(&["--statement", "1"], &input).contains("it is a decline"));
    assert!(refused(&["--statement", "0"], &input).contains("it loads"));
}

#[test]
fn two_times_of_one_variable_are_two_constants() {
    let input = records(&[("fld", &[slot(3, 7)]), ("fadd", &[slot(3, 7)])]);
    let (_, said) = written(&["--place", "0"], &input);
    let twice = "x0_3_3 and x4_3_3 are both slot 3, at two times: to a solver they are two \
                 constants, and equal only if that is asserted";
    assert!(said.contains(&twice.to_owned()), "{said:?}");
    let one = records(&[("fld", &[slot(3, 7)]), ("fadd", &[slot(4, 7)])]);
    let (_, said) = written(&["--place", "0"], &one);
    assert!(
        !said.iter().any(|line| line.contains("at two times")),
        "{said:?}"
    );
}

#[test]
fn what_is_not_there_is_refused() {
    let input = records(&[("fld1", &[])]);
    let place = refused(&["--place", "1"], &input);
    assert!(
        place.contains("place 1 of the stack is not known; place 0 alone is"),
        "{place}"
    );
    let statement = refused(&["--statement", "0"], &input);
    assert!(
        statement.contains("there is no statement 0: 0 were lifted"),
        "{statement}"
    );
    let node = refused(&["--node", "1"], &input);
    assert!(
        node.contains("refused (31)") && node.contains("1 nodes were lifted"),
        "{node}"
    );
    let none = refused(&["--place", "0"], &records(&[("fprem", &[])]));
    assert!(none.contains("none is"), "{none}");
}

#[test]
fn wrong_records_are_refused_with_their_place() {
    let node = ["--node", "0"];
    assert!(refused(&node, b"").contains("the step before this one failed"));
    let whole = records(&[("fld1", &[])]);
    let cut = refused(&node, &whole[..whole.len() - 1]);
    let early = "refused (12): the bytes end early, at byte 17";
    assert!(cut.contains(early), "{cut}");
    let behind = refused(&node, &[&whole[..], b"x"].concat());
    assert!(
        behind.contains("refused (11): a wrong mark, at byte 18"),
        "{behind}"
    );
    let long = refused(&node, &vec![0; MOST_BYTES + 1]);
    assert!(long.contains("refused (13)"), "{long}");
    let many: Vec<(&str, &[Operand])> = vec![("fsin", &[]); 257];
    let full = refused(&node, &records(&many));
    assert!(full.contains("refused (7)"), "{full}");
}

/// A text of `fld` of 32 bits and `fst` of 64, and its nodes.
const TEXT: &str = "\
(declare-fun x0_2_0 () (_ BitVec 32))
(declare-fun x5_26_4 () (_ BitVec 64))
(define-fun n1 () (_ FloatingPoint 8 24) ((_ to_fp 8 24) x0_2_0))
(define-fun n4 () (_ FloatingPoint 11 53) ((_ to_fp 11 53) RNE n1))
(assert (= ((_ to_fp 11 53) x5_26_4) n4))
";
const NODES: &str = "\
n 0 2 0 32 0
n 1 25 0 0 2072
n 2 29 1 0 2869
n 3 26 2 0 0
";

#[test]
fn a_text_is_read_from_standard_input_or_a_file() {
    let listed = (Some(0), NODES.to_owned(), String::new());
    assert_eq!(told(&["--read"], TEXT.as_bytes()), listed);
    let file = std::env::temp_dir().join(format!("x87smt-{}.smt2", std::process::id()));
    std::fs::write(&file, TEXT).expect("it is written");
    let name = file.to_str().expect("a name");
    assert_eq!(told(&["--read", name], b""), listed);
    std::fs::write(&file, "(check-sat)\n").expect("it is written");
    let wrong = refused(&["--read", name], b"");
    assert!(
        wrong.contains(&format!("x87smt: {name}:1:2: no text")),
        "{wrong}"
    );
    std::fs::remove_file(&file).expect("it is removed");
    let none = refused(&["--read", name], b"");
    assert!(none.starts_with(&format!("x87smt: {name}: ")), "{none}");
}

/// What is written of records is read: as many nodes as lines, but for the
/// assertions.
#[test]
fn what_is_written_is_read() {
    let input = records(&[("fld", &[memory(80, 7)]), ("faddp", &[])]);
    let (text, _) = written(&["--place", "0"], &input);
    let (listing, said) = written(&["--read"], text.as_bytes());
    assert_eq!(said, [""; 0]);
    let lines = text.lines().filter(|line| !line.starts_with("(assert"));
    assert_eq!(listing.lines().count(), lines.count());
}

#[test]
fn what_is_no_text_is_refused_with_its_line() {
    let second = TEXT.find("x5").expect("it is there") + 2;
    for (text, said) in [
        (
            TEXT.replace("RNE n1", "RNE  n1"),
            "standard input:4:64: no text can follow from here\n\
             (define-fun n4 () (_ FloatingPoint 11 53) ((_ to_fp 11 53) RNE  n1))\n\
             \x20                                                              ^\n",
        ),
        (
            format!("{TEXT}(check-sat)\n"),
            "standard input:6:1: no text can follow from here\n(check-sat)\n^\n",
        ),
        (
            TEXT[..second].to_owned(),
            "standard input:2:16: the text stops early\n(declare-fun x5\n\x20              ^\n",
        ),
        (
            "(de\t\u{e9}".to_owned(),
            "standard input:1:4: no text can follow from here\n(de???\n\x20  ^\n",
        ),
        (
            String::new(),
            "standard input:1:1: the text stops early\n\n^\n",
        ),
    ] {
        let said: String = said
            .lines()
            .map(|line| format!("x87smt: {line}\n"))
            .collect();
        assert_eq!(refused(&["--read"], text.as_bytes()), said);
    }
}

#[test]
fn what_cannot_be_written_ends_with_1() {
    let full = || Stdio::from(File::create("/dev/full").expect("it is there"));
    let done = run(&["--place", "0"], &records(&[("fld1", &[])]), full());
    assert_eq!(done.status.code(), Some(1));
    let said = String::from_utf8_lossy(&done.stderr).into_owned();
    assert!(said.contains("standard output"), "{said}");
    assert_eq!(run(&["--help"], b"", full()).status.code(), Some(1));
}
