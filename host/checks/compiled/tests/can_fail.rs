//! That the comparison can fail: texts that were changed, beside the
//! recorded runs.

use std::fs;
use std::io::{self, Write as _};

use compiled::beside::Beside;
use compiled::code::Code;
use compiled::functions::{GROUPS, LEVELS};
use compiled::reading::{Counts, compare};
use compiled::run::{Part, Run};
use compiled::stored::{Record, Records, file};
use compiled::way::{Asked, decisions, shown, visits};
use differential::processor::tell_emulated;
use program::{MISSING, Program};

/// A recorded run and the text of its way.
struct Case {
    function: &'static str,
    run: Run,
    parts: Vec<Part>,
    code: Code,
    visits: Vec<usize>,
    text: String,
}

impl Case {
    /// Compare the run with some text.
    fn told(&self, text: &str) -> Result<(), String> {
        let beside = Beside {
            run: &self.run,
            parts: &self.parts,
            code: &self.code,
            visits: &self.visits,
        };
        compare(text, beside, &mut Counts::new())
    }
}

/// The program, or a line that says why nothing is tested.
fn program() -> Option<Program> {
    let program = Program::at_hand();
    if program.is_some() {
        tell_emulated();
    } else {
        // A line that cannot be written is no reason to fail.
        let _ = writeln!(io::stderr(), "left out: {MISSING}");
    }
    program
}

/// The recorded runs of a group at a level, of the functions that are
/// wanted.
fn cases(
    program: &Program,
    (group, level): (&str, &str),
    wanted: impl Fn(&str) -> bool,
    assume_reset: bool,
) -> Vec<Case> {
    let group = GROUPS.iter().find(|known| known.name == group);
    let group = group.expect("the group is there");
    let objdump = fs::read_to_string(file(group, level, "objdump")).expect("it is stored");
    let stored = Records::load(group, level).expect("they are stored");
    let function = |record: &Record| group.functions[record.function as usize].name;
    let records = stored
        .records
        .iter()
        .filter(|record| wanted(function(record)));
    let cases = records.map(|record| {
        let function = function(record);
        let code = Code::of(&objdump, function).expect("it is there");
        let run = record.run(stored.arena).expect("a run");
        let visits = visits(&run, &code);
        let asked = Asked {
            objdump: &objdump,
            function,
            assume_reset,
        };
        let text = shown(program, asked, &decisions(&run, &code, &visits));
        Case {
            function,
            parts: stored.parts.clone(),
            text: text.expect("it is shown"),
            run,
            code,
            visits,
        }
    });
    cases.collect()
}

/// A function of a group at a level, and what is changed in its texts, one
/// after the other.
type Edits = ([&'static str; 3], &'static [[&'static str; 2]]);

const EDITS: &[Edits] = &[
    (
        ["numbers", "-O2", "distance"],
        &[[" + ", " - "], [" * ", " / "], ["sqrt(", "abs("]],
    ),
    (
        ["numbers", "-O2", "negated"],
        &[["abs(", "("], ["m0 - abs(s1 - s2)", "abs(s1 - s2) - m0"]],
    ),
    (
        ["numbers", "-O2", "across"],
        &[["s2 - in0 * s2", "in0 * s2 - s2"]],
    ),
    (["numbers", "-O2", "to_int"], &[["trunc(", "round("]]),
    (["numbers", "-O0", "to_short"], &[["trunc(", "("]]),
    (["whole", "-O2", "nearest"], &[["round(", "trunc("]]),
    (
        ["numbers", "-O2", "sum"],
        &[["= 0.0", "= -0.0"], ["= 0.0 + m0", "= m0 + m0"]],
    ),
    (
        ["compares", "-O2", "sign"],
        &[["= 1.0", "= 2.0"], ["= -1.0", "= 1.0"]],
    ),
    (
        ["numbers", "-O2", "both"],
        &[
            ["[esp0+0x8]", "[esp0+0xc]"],
            ["[eax+0x8] :=", "[eax+0x4] :="],
            ["[eax] :=", "[ecx] :="],
        ],
    ),
    (
        ["numbers", "-O2", "stored"],
        &[["80 bits", "64 bits"], ["f64(", "f32("]],
    ),
    (
        ["numbers", "-O2", "scaled"],
        &[["[esp0-0x4]", "[esp0-0x8]"], ["#2", ""]],
    ),
    (
        ["compares", "-O2", "chosen"],
        &[
            [" < ", " == "],
            ["CF2 || ZF2", "CF1 || ZF1"],
            [
                "as cmp at 8049080 wrote it: integer code",
                "as fcomi at 8049078 wrote it",
            ],
            ["as fcomi at 8049078", "as cmp at 8049080"],
        ],
    ),
    (
        ["compares", "-O2", "order"],
        &[["s2 == s1", "s1 < s2"], ["not taken", "taken"]],
    ),
    (
        ["compares-i386", "-O2", "order"],
        &[["C3: ", "C3: !"], ["ax := fsw2", "ax := fsw1"]],
    ),
    (
        ["whole", "-O2", "floor_of"],
        &[
            [
                "rounds down, as floor does, p",
                "rounds up, as ceil does, p",
            ],
            ["precision 64", "precision 53"],
        ],
    ),
    (
        ["whole", "-O2", "remainder_of"],
        &[["is st(0) behind", "is st(1) behind"]],
    ),
    (
        ["numbers", "-O2", "tail"],
        &[["which is no return", "at the return"]],
    ),
];

/// Nothing is changed.
const UNCHANGED: [&str; 2] = ["", ""];

/// What is seen of a change in the texts of these runs: a difference, or
/// that the text does not fit the run.
fn seen(cases: &[Case], [from, to]: [&str; 2]) -> Option<String> {
    let changed = cases.iter().map(|case| (case, case.text.replace(from, to)));
    changed
        .filter_map(|(case, text)| case.told(&text).err())
        .next()
}

#[test]
fn what_is_changed_is_seen() {
    let Some(program) = program() else { return };
    for &([group, level, function], edits) in EDITS {
        let cases = cases(&program, (group, level), |name| name == function, false);
        assert_eq!(seen(&cases, UNCHANGED), None, "{function}");
        let unseen = edits.iter().find(|&&edit| seen(&cases, edit).is_none());
        assert_eq!(unseen, None, "{function}");
    }
}

/// Whether a line says something that must not be left out: a formula, but
/// for the stack where it was forgotten, a decision or the end.
fn is_needed(line: &str, text: &str) -> bool {
    let body = line.split_once(": ").map_or("--", |(_, body)| body);
    if line.starts_with("--") || body.starts_with("--") {
        return body.ends_with("taken") || body.contains("ends here");
    }
    !(body.starts_with("st(") && text.contains("the stack is forgotten here"))
}

/// A line that can be left out of a text.
fn spare(case: &Case) -> Option<&str> {
    let lines: Vec<&str> = case.text.lines().collect();
    let needed = (0..lines.len()).filter(|&at| is_needed(lines[at], &case.text));
    let mut spare = needed.filter(|&at| {
        let others = [&lines[..at], &lines[at + 1..]].concat();
        case.told(&others.join("\n")).is_ok()
    });
    spare.next().map(|at| lines[at])
}

#[test]
fn what_is_left_out_is_seen() {
    let Some(program) = program() else { return };
    let levels = GROUPS
        .iter()
        .flat_map(|group| LEVELS.map(|level| (group.name, level)));
    for case in levels.flat_map(|level| cases(&program, level, |_| true, false)) {
        assert_eq!(spare(&case), None, "{} in\n{}", case.function, case.text);
    }
}

/// Without the control word that `fldcw` loads, the conversion to an
/// integer is shown as one to the nearest.
#[test]
fn a_control_word_that_is_not_followed_is_seen() {
    let Some(program) = program() else { return };
    for level in LEVELS {
        let cases = cases(&program, ("numbers", level), |name| name == "to_int", true);
        let why = seen(&cases, UNCHANGED).expect("it is seen");
        assert!(why.contains(":= i32(in0): told "), "{why}");
    }
}
