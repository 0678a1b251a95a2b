//! Listings and their readable texts.

use notes::{Event, Notes, Record, What};
use sleetgate::{Instruction, Lifter, Operand, Place, write_record};
use x87show::{Wrong, show};

/// The listing of some instructions, as the program prints it.
fn listing(lifter: &Lifter, refused: &str) -> String {
    let row = |mark: char, number: usize, row: [u64; 4]| {
        let [kind, a, b, c] = row;
        format!("{mark} {number} {kind} {a} {b} {c}\n")
    };
    let nodes = lifter.nodes().iter().enumerate();
    let mut text: String = nodes.map(|(at, node)| row('n', at, node.row())).collect();
    for (at, statement) in lifter.statements().iter().enumerate() {
        text += &row('s', at, statement.row());
    }
    let state = lifter.state();
    let counts = [state.depth, state.inputs, state.temporaries];
    let words = counts.iter().chain(lifter.stack());
    text.push('d');
    text.extend(words.map(|word| format!(" {word}")));
    text + "\n" + refused
}

/// A register, memory as `WIDTH@ADDRESS`, where `?` is an address that is
/// not known, or `?` for anything else.
fn operand(text: &str) -> Operand {
    match text.split_once('@') {
        Some((width, address)) => {
            let place = match address {
                "?" => Place::Unknown,
                number => Place::Address(number.parse().expect("an address number")),
            };
            Operand::memory(width.parse().expect("a width"), place)
        }
        None if text == "?" => Operand::Other,
        None => Operand::register(text),
    }
}

/// The instruction of a line `NAME OPERAND OPERAND`.
fn instruction(address: u64, line: &str) -> Instruction {
    let mut words = line.split(' ');
    let name = words.next().unwrap_or_default();
    Instruction::new(address, name, words.map(operand))
}

/// The readable text of a line for each instruction.
fn shown(lines: &[&str]) -> String {
    let mut lifter = Lifter::with_capacity(1_024, 256);
    for (address, line) in (0x10..).zip(lines) {
        let lifted = lifter.lift(&instruction(address, line));
        lifted.expect("there is room");
    }
    let shown = show(&listing(&lifter, ""), None).expect("it is a listing");
    let (head, text) = shown.text.split_once('\n').expect("a head");
    assert!(head.starts_with("-- without --names: "), "{head}");
    text.to_owned()
}

#[test]
fn arithmetic_is_infix_with_few_brackets() {
    let text = shown(&[
        "fld 32@1",
        "fadd 64@2",
        "fmul 32@3",
        "fsubr 32@4",
        "fstp 32@5",
    ]);
    let expected = "m0 := [address 1], 32 bits\nm1 := [address 2], 64 bits\n\
                    m2 := [address 3], 32 bits\nm3 := [address 4], 32 bits\n\
                    [address 5] := f32(m3 - (m0 + m1) * m2)\n-- nothing is known of the stack\n";
    assert_eq!(text, expected);
}

#[test]
fn brackets_keep_the_order_of_operations() {
    assert_eq!(
        shown(&["fsub st(0) st(1)", "fsubp st(1) st(0)"]),
        "st(0) = in1 - (in0 - in1)\n"
    );
    assert_eq!(
        shown(&["fadd st(0) st(1)", "fsubrp st(1) st(0)"]),
        "st(0) = in0 + in1 - in1\n"
    );
    assert_eq!(
        shown(&["fdiv st(0) st(1)", "fchs"]),
        "st(0) = -(in0 / in1)\nst(1) = in1\n"
    );
    assert_eq!(shown(&["fchs", "fsqrt"]), "st(0) = sqrt(-in0)\n");
}

#[test]
fn parts_that_are_used_twice_have_names() {
    assert_eq!(
        shown(&["fadd st(0) st(1)", "fmul st(0) st(0)", "fmul st(0) st(0)"]),
        "let t1 = in0 + in1\nlet t2 = t1 * t1\nst(0) = t2 * t2\nst(1) = in1\n"
    );
}

#[test]
fn long_formulas_are_divided() {
    let lines: Vec<&str> = [["fadd 32@1"; 12], ["fmul 32@2"; 12]].concat();
    let text = shown(&lines);
    assert!(text.lines().all(|line| line.len() < 100), "{text}");
}

#[test]
fn constants_are_decimal() {
    assert_eq!(shown(&["fld1", "fldz"]), "st(0) = 0.0\nst(1) = 1.0\n");
}

#[test]
fn images_and_integers_are_named() {
    assert_eq!(
        shown(&["fld 80@1", "fstp 80@2"]),
        "m0 := [address 1], 80 bits\n[address 2] := f80(number(m0, in0))\n-- nothing is known of the stack\n"
    );
    assert_eq!(
        shown(&["fild 16@1", "frndint", "fist 32@2", "fisttp 64@3"]),
        "m0 := [address 1], 16 bits\nlet t1 = round(int(m0))\n[address 2] := i32(t1)\n\
         [address 3] := i64(trunc(t1))\n-- nothing is known of the stack\n"
    );
}

#[test]
fn a_flag_is_read_where_it_is_read() {
    let lines = [
        "fcmovb st(0) st(1)",
        "fcomi st(0) st(1)",
        "fcmovnb st(0) st(1)",
    ];
    let expected = "CF1 := CF\nlet t1 = CF1 ? in1 : in0\nlet t2 = isnan(t1) || isnan(in1)\n\
                    PF := t2\nZF := t2 || t1 == in1\nCF := t2 || t1 < in1\nOF := 0\nSF := 0\n\
                    CF2 := CF\nst(0) = !CF2 ? in1 : t1\nst(1) = in1\n";
    assert_eq!(shown(&lines), expected);
}

#[test]
fn a_status_word_has_its_parts() {
    let expected = "let t1 = isnan(in0) || isnan(in1)\n\
                    fsw := status(C0: t1 || in0 < in1, C2: t1, C3: t1 || in0 == in1, rest: in2)\n\
                    fsw1 := fsw\nax := fsw1\nst(0) = in0\nst(1) = in1\n";
    assert_eq!(shown(&["fcom", "fnstsw ax"]), expected);
}

#[test]
fn declines_are_said_in_words() {
    let declines = [
        ("fsin", "the lifter does not know its name"),
        ("fld1 st(1)", "its name takes another number of operands"),
        (
            "fld eax",
            "an operand is of a kind, or a register, that its name does not take",
        ),
        ("fld 32@?", "the address of its memory operand is not known"),
        (
            "fist 64@1",
            "the width of its memory operand is not known, or its name does not take it",
        ),
    ];
    for (line, words) in declines {
        let expected = format!(
            "-- 0x11: {words}: the stack is forgotten here\n-- nothing is known of the stack\n"
        );
        assert_eq!(shown(&["fld1", line]), expected);
    }
    let full = shown(&["fld1"; 9]);
    assert!(full.starts_with("-- 0x18: pushes onto a full stack: the stack is forgotten here\n"));
    let lifter = Lifter::with_capacity(16, 16);
    let shown = show(&listing(&lifter, "r 6 99\n"), None).expect("it is a listing");
    let end = "-- refused (6): no room for the instruction's nodes, at byte 99 of the records\n";
    assert!(shown.refused && shown.text.ends_with(end), "{}", shown.text);
}

/// What is said of a decline, with notes of a record that give this
/// reason.
fn reason(insn: &Instruction, why: Option<&str>) -> String {
    let mut lifter = Lifter::default();
    lifter.lift(insn).expect("there is room");
    let mut bytes = Vec::new();
    write_record(insn, &mut bytes).expect("it has a record");
    let record = Record {
        bytes,
        text: "this".to_owned(),
        why: why.map(str::to_owned),
        ..Record::default()
    };
    let event = Event {
        address: insn.address,
        what: What::Record(record),
    };
    let notes = Notes {
        events: vec![event],
        ..Notes::default()
    };
    let shown = show(&listing(&lifter, ""), Some(&notes)).expect("it is a listing");
    let said = shown.text.strip_prefix("10: -- this: ");
    let said = said.and_then(|said| said.strip_suffix(": the stack is forgotten here\n"));
    said.expect("it is declined").to_owned()
}

/// Declines, and what can be said of each with its record.
const DECLINES: [(&str, &str); 20] = [
    ("fprem", "the lifter does not know the name fprem"),
    ("call ?", "the lifter does not know the name call"),
    ("fld1 st(1)", "it has 1 operand, and its name takes 0"),
    ("fld", "it has 0 operands, and its name takes 1"),
    ("fadd", "it has 0 operands, and its name takes 1 or 2"),
    (
        "fxch st(0) 7@?",
        "it has 2 operands, and its name takes 0 or 1",
    ),
    (
        "faddp ? ? ?",
        "it has 3 operands, and its name takes 0, 1 or 2",
    ),
    ("fxch st(8)", "its name does not take st(8)"),
    ("fnstsw eax", "its name does not take eax"),
    ("fucom 32@1", "its name does not take memory"),
    (
        "fld ?",
        "its name does not take what is read as neither register nor memory",
    ),
    (
        "fadd st(0) 32@1",
        "its name does not take memory as operand 2",
    ),
    ("fcomi eax ebx", "its name does not take ebx as operand 2"),
    (
        "fcmovb st(1) st(2)",
        "its name does not take st(1) as operand 1",
    ),
    (
        "fcmovb st(1) ax",
        "its name does not take st(1) as operand 1, nor ax as operand 2",
    ),
    ("fstp 7@?", "the address of its memory operand is not known"),
    (
        "fist 64@1",
        "its memory operand has 64 bits, and its name takes 16 or 32",
    ),
    (
        "fld 128@1",
        "its memory operand has 128 bits, and its name takes 32, 64 or 80",
    ),
    (
        "fnstsw 32@1",
        "its memory operand has 32 bits, and its name takes 16",
    ),
    (
        "fadd 0@1",
        "the width of its memory operand is not known, and its name takes 32 or 64 bits",
    ),
];

#[test]
fn a_decline_says_what_the_name_does_not_take() {
    for (line, words) in DECLINES {
        assert_eq!(reason(&instruction(0x10, line), None), words, "{line}");
    }
}

#[test]
fn the_reason_of_the_notes_stands_first() {
    let made = instruction(0x10, "?fadd");
    let why = "its rounding is not known";
    assert_eq!(reason(&made, Some(why)), why);
    assert_eq!(
        reason(&made, None),
        "the lifter does not know the name ?fadd"
    );
}

/// Whatever a record has for a text, it makes no line of its own.
#[test]
fn a_text_stays_on_its_line() {
    let name = Instruction::new(0x10, "f\n12: st(0) = 1.0", []);
    let words = "the lifter does not know the name f\\n12: st(0) = 1.0";
    assert_eq!(reason(&name, None), words);
    let register = Instruction::new(0x10, "fld", [Operand::register("\n")]);
    assert_eq!(reason(&register, None), "its name does not take \\n");
}

#[test]
fn what_is_no_listing_is_named() {
    let wrong = |text: &str| show(text, None).expect_err("it is no listing");
    let at = |line, why| Wrong::Line { line, why };
    let line = |text: &str| match wrong(text) {
        Wrong::Line { line, .. } => line,
        Wrong::Step(why) => panic!("{why}"),
    };
    assert_eq!(
        wrong("n 0 4 0 0 0\n"),
        at(2, "the row d with the state is missing")
    );
    assert_eq!(line("n 0 4 0 0 0\nx 1\n"), 2);
    assert_eq!(line("n 0 4 0 0\n"), 1);
    assert_eq!(
        wrong("n 0 4 0 0 1\nd 0 0 0\n"),
        at(1, "there is no such node")
    );
    assert_eq!(
        wrong("n 0 26 0 0 0\nd 0 0 0\n"),
        at(1, "the node has no sort")
    );
    assert_eq!(line("n 1 4 0 0 0\n"), 1);
    assert_eq!(
        wrong("s 0 3 0 0 0\n"),
        at(1, "a statement names a node of its width")
    );
    assert_eq!(line("d 1 0 0\n"), 1);
    assert_eq!(wrong("d 0 0 0\nr 2 0\n"), at(2, "there is no such refusal"));
    assert_eq!(line("d 0 0 0\nd 0 0 0\n"), 2);
    let deep: String = (1..1_025)
        .map(|n| format!("n {n} 12 {} 0 0\n", n - 1))
        .collect();
    let deep = format!("n 0 6 1 0 1\n{deep}d 0 0 0\n");
    assert_eq!(
        wrong(&deep),
        at(1_025, "x87lift writes at most 1,024 nodes")
    );
    assert_eq!(
        wrong("n 0 4 0 0 0\nd 1 0 0 0\n"),
        at(2, "a state has a node of 79 bits for each place")
    );
    assert_eq!(wrong("d 0 0 zero\n"), at(1, "fields are decimal numbers"));
}

#[test]
fn a_decline_has_an_answer_and_a_detail_of_its_own() {
    for row in ["1 16 0", "1 16 20", "1 16 26", "2 16 21", "0 16 21"] {
        let wrong = show(&format!("s 0 6 {row}\nd 0 0 0\n"), None);
        let why = "there is no such statement";
        assert_eq!(wrong, Err(Wrong::Line { line: 1, why }), "{row}");
    }
}

#[test]
fn a_failed_step_is_not_an_empty_stack() {
    let why = |listing: &str| show(listing, None).expect_err("a step failed").to_string();
    assert_eq!(
        why("d 0 0 0\nr 12 0\n"),
        "x87lift got no records: the step before it failed"
    );
    assert_eq!(
        why(""),
        "x87lift wrote nothing: the step before this one failed"
    );
    let failed = Notes::failed("there is no function `f`");
    let why = show("d 0 0 0\nr 12 0\n", Some(&failed)).expect_err("a step failed");
    assert_eq!(why.to_string(), "x87rec failed: there is no function `f`");
}
