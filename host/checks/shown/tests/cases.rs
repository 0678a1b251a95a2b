//! The cases: what is shown of them is as stored, and what is stored says
//! what the code does.

use std::fs;
use std::io::Write as _;

use program::{MISSING, Program};
use shown::{CASES, Case, options, told};

/// The program, or a line past the test harness's capture.
fn program() -> Option<Program> {
    let program = Program::at_hand();
    if program.is_none() {
        // A line that cannot be written is no reason to fail.
        let _ = writeln!(std::io::stderr(), "left out: {MISSING}");
    }
    program
}

fn case(shown: &str) -> &'static Case {
    let found = CASES.iter().find(|case| case.shown == shown);
    found.expect("there is such a case")
}

/// The stored text of a case.
fn stored(shown: &str) -> String {
    fs::read_to_string(case(shown).stored()).expect("it is stored")
}

/// The stored lines of an address, without it.
fn lines_at(shown: &str, address: &str) -> Vec<String> {
    let text = stored(shown);
    let own = text.lines().filter_map(|line| line.split_once(": "));
    let own = own.filter(|(at, _)| at.trim_start() == address);
    own.map(|(_, words)| words.to_owned()).collect()
}

#[test]
fn all_cases_are_as_stored() {
    let Some(program) = program() else { return };
    for case in &CASES {
        let told = case.told(&program).expect("each step is done");
        assert_eq!(told, stored(case.shown), "{}", case.shown);
    }
}

/// A text that differs in one instruction is shown otherwise.
#[test]
fn another_code_is_shown_otherwise() {
    let Some(program) = program() else { return };
    let edits = [
        ("truncation", "or     ah,0xc", "or     ah,0x8"),
        ("integer-flags", "cmp    DWORD", "mov    DWORD"),
        ("loop", "fadd   QWORD", "fsub   QWORD"),
        ("tail-call", "jmp    b <tail+0xb>", "ret"),
        ("moving-esp", "sub    esp,0x24", "sub    esp,0x20"),
        ("returned", "fmul   QWORD", "fdiv   QWORD"),
        ("declined", "fist QWORD", "fistp QWORD"),
        ("declined", "fld [edx]", "fild [edx]"),
        ("declined", "fnstsw eax", "fnstsw ebx"),
        ("declined", "fxch st,st(1)", "fxch st,st(1),st(2)"),
    ];
    for (shown, from, to) in edits {
        let path = case(shown).stored().with_file_name(case(shown).text);
        let text = fs::read_to_string(path).expect("the text is there");
        let other = text.replace(from, to);
        assert_ne!(text, other, "{shown}");
        let options = options(case(shown).words).expect("they are right");
        let told = told(&other, &options, &program).expect("each step is done");
        assert_ne!(told, stored(shown), "{shown}");
    }
}

/// Each line that is no head has the address of an instruction.
#[test]
fn each_line_has_an_address() {
    for case in &CASES {
        let text = stored(case.shown);
        let rest = text.lines().skip_while(|line| line.starts_with("-- "));
        let address = |line: &str| {
            let (address, _) = line.split_once(": ").expect("an address");
            u64::from_str_radix(address.trim_start(), 16).expect("it is one")
        };
        assert!(rest.map(address).count() > 0, "{}", case.shown);
        assert!(text.starts_with("-- assumed: on entry the control word"));
    }
}

/// `(int)(a * 2.0)` truncates.
#[test]
fn a_conversion_to_an_integer_truncates() {
    let store = "[esp0-0xc] := i32(trunc(s1 + s1))".to_owned();
    assert!(lines_at("truncation", "2e").contains(&store));
    let old = "[esp0-0xc] := i32(trunc(s1 + s2))".to_owned();
    assert!(lines_at("old-truncation", "1c").contains(&old));
}

/// The second move reads the flags of `cmp`, not those of `fcomi`.
#[test]
fn integer_flags_are_told_from_those_of_a_compare() {
    let moved = lines_at("integer-flags", "45");
    assert_eq!(moved.len(), 2);
    for line in moved {
        assert!(
            line.contains("cmp at 40") && !line.contains("fcomi"),
            "{line}"
        );
    }
}

/// Only the way that leaves the loop comes to the return.
#[test]
fn the_end_of_a_turn_is_no_return() {
    assert!(stored("loop").contains("31: -- ret: the way ends here"));
    let again = stored("loop-again");
    assert!(again.contains("2f: -- jne 28 <loopsum+0x18>: the way comes to 28 again"));
    assert!(!again.contains("-- ret"), "{again}");
}

/// What a tail call gives back is not what the stack holds.
#[test]
fn a_tail_call_is_no_return() {
    let end = lines_at("tail-call", "a").join("\n");
    assert!(end.contains("the way leaves the code") && end.contains("no return"));
}

/// What is stored before two pushes is loaded behind them.
#[test]
fn a_place_keeps_its_name_where_esp_moves() {
    assert_eq!(lines_at("moving-esp", "d7"), ["[esp0-0x14] := f64(s1)"]);
    assert_eq!(lines_at("moving-esp", "e8"), ["s2 := [esp0-0x14], 64 bits"]);
    let result = "st(0) = s2 - in0 * s2".to_owned();
    assert!(lines_at("moving-esp", "f3").contains(&result));
}

#[test]
fn what_is_returned_is_shown() {
    for shown in ["returned", "returned-whole"] {
        let result = "st(0) = s1 * s2 + m0".to_owned();
        assert!(lines_at(shown, "e").contains(&result), "{shown}");
    }
}

/// Neither `floor` nor `ceil` is shown as a rounding to nearest even.
#[test]
fn floor_and_ceil_are_not_shown_as_roundings_to_nearest() {
    for shown in ["floor", "counted"] {
        let text = stored(shown);
        assert!(text.contains("rounds down, as floor does"), "{text}");
        assert!(!text.contains("round(") && !text.contains("i32("), "{text}");
    }
    assert!(stored("floor").contains("rounds up, as ceil does"));
}

/// Two externals are two places, and a name is shown where objdump has 0.
#[test]
fn externals_have_their_names() {
    assert_eq!(
        lines_at("externals-mixed", "13")[0],
        "m0 := [scale], 64 bits"
    );
    assert_eq!(
        lines_at("externals-mixed", "33")[0],
        "m1 := [shift], 64 bits"
    );
    let element = "m4 := [weights+eax*8], 64 bits".to_owned();
    assert!(lines_at("externals-llvm", "64").contains(&element));
}

/// A jump table leads to the cases, and not out of the text.
#[test]
fn a_jump_table_is_told() {
    for (shown, at) in [("switch", "19"), ("switch-gdb", "8049029")] {
        let words = lines_at(shown, at).join("\n");
        assert!(
            words.contains("goes where the text does not tell"),
            "{words}"
        );
        assert!(!words.contains("leaves the code"), "{words}");
    }
}

/// No run comes to a case from behind the return above it.
#[test]
fn a_case_is_come_to_from_elsewhere() {
    let quotient = lines_at("switch-gdb", "8049052").join("\n");
    assert!(quotient.contains("in9 is st(1) on coming to 8049050"));
    let text = stored("switch-gdb");
    assert!(!text.contains("behind 8049048"), "{text}");
}

/// A callee that may take its arguments leaves no place counted from the
/// stack pointer on entry, but for those of a frame.
#[test]
fn a_stdcall_callee_leaves_no_false_place() {
    let text = stored("stdcall");
    let (_, behind) = text.split_once("6b: -- call far_taken").expect("a call");
    assert!(!behind.contains("[esp0"), "{behind}");
    let text = stored("framed");
    assert!(text.contains("37: st(0) = s6 - in1 * s4"), "{text}");
    assert!(text.contains("33: s6 := [esp0-0x1c], 64 bits"), "{text}");
}

/// A callee of the text tells by its `ret 0xc` what it takes: what is
/// stored behind the first call is loaded behind the second.
#[test]
fn a_callee_of_the_text_tells_what_it_takes() {
    let text = stored("stdcall-told");
    assert!(text.contains("28: [esp0-0x14] := f64(in0)"), "{text}");
    assert!(text.contains("41: s4 := [esp0-0x14], 64 bits"), "{text}");
    assert!(text.contains("48: st(0) = s4 - in1 * s3"), "{text}");
}

/// Code of 64 bits: entries of the stack have eight bytes.
#[test]
fn entries_of_the_stack_may_have_eight_bytes() {
    assert_eq!(lines_at("wide", "18")[0], "s1 := [rsp0+0x8], 80 bits");
    let result = "st(0) = in1 * number(m0, in0) - number(s1, in2)".to_owned();
    assert!(lines_at("wide", "1f").contains(&result));
}

/// With 53 bits no sum is shown as one of 64 bits; a store is exact
/// enough to be shown.
#[test]
fn a_windows_word_rounds_sums_to_53_bits() {
    let sum = lines_at("windows", "39").join("\n");
    assert!(sum.contains("rounded to 53 bits"), "{sum}");
    assert!(!stored("windows").contains(" + "), "no sum is shown");
    assert_eq!(lines_at("control-words", "55"), ["[esp0+0xc] := f32(s6)"]);
}

/// A decline is said in words that tell what the name takes instead, as
/// far as that is simple.
#[test]
fn a_decline_says_why() {
    let why = [
        ("1004", "the lifter does not know the name fprem"),
        ("1006", "it has 2 operands, and its name takes 0 or 1"),
        ("100c", "its name does not take st(8)"),
        ("1010", "its name does not take st(1) as operand 1"),
        ("1012", "its name does not take memory as operand 2"),
        ("1018", "the address of its memory operand is not known"),
        (
            "1022",
            "its memory operand has 64 bits, and its name takes 16 or 32",
        ),
        (
            "1028",
            "the width of its memory operand is not known, and its name takes 32, 64 or 80 bits",
        ),
    ];
    for (address, words) in why {
        let [line] = &lines_at("declined", address)[..] else {
            panic!("one line at {address}");
        };
        let (_, said) = line.split_once(": ").expect("words behind the text");
        let said = said.split(": the stack is forgotten here").next();
        assert_eq!(said, Some(words), "{address}");
    }
}

/// What is shown of some plain lines.
fn of_lines(program: &Program, text: &str, words: &str) -> String {
    let words = options(words).expect("there are such options");
    told(text, &words, program).expect("each step is done")
}

#[test]
fn a_flag_of_a_declined_compare_is_not_modelled() {
    let Some(program) = program() else { return };
    let text = of_lines(
        &program,
        "0 fcomi st,st(9)\n2 fcmovb st,st(1)\n4 ret\n",
        "--path",
    );
    assert!(
        text.contains("CF1 := CF, as fcomi at 0 wrote it: not modelled\n"),
        "{text}"
    );
}

#[test]
fn nothing_comes_from_behind_a_return() {
    let Some(program) = program() else { return };
    let text = of_lines(&program, "0 ret\n1 fstp DWORD PTR [eax]\n3 ret\n", "");
    assert!(text.contains("in0 is st(0) on coming to 1\n"), "{text}");
}
