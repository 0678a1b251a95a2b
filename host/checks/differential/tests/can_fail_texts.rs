//! The comparisons of texts can fail: the plain writer and reader with one
//! fault put into what they say, and the difference that is reported.

use differential::report::Report;
use differential::solver::Solver;
use differential::subject::{Library, Plain, Texts};
use differential::{every_text, left_out, stored_texts, text_reads, text_values, texts};
use plain::smt::{arity, is_declared};
use plain::state::ROW;
use plain::{MODELLED, NO_NODES, NO_ROOT, NO_SORT, NO_TEXT, TEXT_TOO_LONG, TOO_SHORT};

/// Bytes that the text of a node has at most.
const MOST_BYTES: usize = 300;

/// Another text in the place of one.
type Misspell = fn(String) -> String;
/// Another answer of the writer, which wrote these bytes and told these
/// words.
type Misjudge = fn(u32, &mut [u8], &mut [u64]) -> u32;
/// Another text that is read.
type Mishear = fn(&[u8]) -> Vec<u8>;
/// Another answer of the reader of these bytes, which wrote these rows and
/// told these words.
type Misread = fn(u32, &[u8], &mut [u64], &mut [u64]) -> u32;

/// The plain writer and reader, but for a fault.
#[derive(Default)]
struct Faulty {
    misspell: Option<Misspell>,
    misjudge: Option<Misjudge>,
    mishear: Option<Mishear>,
    misread: Option<Misread>,
}

impl Faulty {
    /// The text that is written, whatever room there is.
    fn spelt(&self, nodes: &[u64], count: usize, root: usize) -> Option<String> {
        let misspell = self.misspell?;
        let (mut text, mut told) = (vec![0; nodes.len() * MOST_BYTES], [0]);
        if Plain.smt_write(nodes, count, root, &mut text, &mut told) != MODELLED {
            return None;
        }
        text.truncate(usize::try_from(told[0]).expect("in memory"));
        Some(misspell(String::from_utf8(text).expect("ASCII")))
    }
}

impl Texts for Faulty {
    fn smt_write(
        &self,
        nodes: &[u64],
        count: usize,
        root: usize,
        text: &mut [u8],
        out: &mut [u64],
    ) -> u32 {
        let number = match (self.spelt(nodes, count, root), out.first_mut()) {
            (Some(spelt), Some(told)) => match text.get_mut(..spelt.len()) {
                Some(room) => {
                    room.copy_from_slice(spelt.as_bytes());
                    *told = spelt.len() as u64;
                    MODELLED
                }
                None => {
                    *told = 0;
                    TEXT_TOO_LONG
                }
            },
            _ => Plain.smt_write(nodes, count, root, text, out),
        };
        self.misjudge
            .map_or(number, |judge| judge(number, text, out))
    }

    fn smt_read(&self, text: &[u8], nodes: &mut [u64], out: &mut [u64]) -> u32 {
        let heard = self.mishear.map_or(text.to_vec(), |mishear| mishear(text));
        let number = Plain.smt_read(&heard, nodes, out);
        self.misread
            .map_or(number, |misread| misread(number, text, nodes, out))
    }
}

/// Differences are reported, and the first of them shows the call.
#[track_caller]
fn shown(report: &Report, call: &str) {
    let first = report.first.as_deref().expect("a difference is reported");
    assert!(report.differences > 0 && !report.is_equal());
    assert!(first.contains(call), "{first}");
}

/// A writer with this fault is reported.
#[track_caller]
fn written(misspell: Misspell) -> Faulty {
    let subject = Faulty {
        misspell: Some(misspell),
        ..Faulty::default()
    };
    shown(&texts::run_short(&subject, 2_000, 3), "text of root ");
    subject
}

/// `BoolAnd` as And of one bit: worth the same, and another node.
fn and_of_bits(text: String) -> String {
    let line = |line: &str| match line.split_once("(ite (and (= #b1 ") {
        Some((begin, rest)) => {
            let rest = rest.replace(") (= #b1 ", " ").replace(")) #b1 #b0)", ")");
            format!("{begin}(bvand {rest}\n")
        }
        None => format!("{line}\n"),
    };
    text.lines().map(line).collect()
}

/// The first definition is missing.
fn one_missed(text: String) -> String {
    let first = text
        .lines()
        .position(|line| line.starts_with("(define-fun"));
    let lines = text.lines().enumerate();
    let lines = lines.filter(|(at, _)| text.lines().count() < 2 || Some(*at) != first);
    lines.map(|(_, line)| format!("{line}\n")).collect()
}

/// The halves of each concat are exchanged.
fn exchanged(text: String) -> String {
    let line = |line: &str| match line.split_once("(concat ") {
        Some((begin, halves)) => {
            let (high, low) = halves.split_once(' ').expect("two halves");
            format!("{begin}(concat {} {high}))\n", low.trim_end_matches(')'))
        }
        None => format!("{line}\n"),
    };
    text.lines().map(line).collect()
}

/// Nothing is asserted.
fn unasserted(text: String) -> String {
    let lines = text.lines().filter(|line| !line.starts_with("(assert"));
    lines.map(|line| format!("{line}\n")).collect()
}

#[test]
fn wrong_texts_are_reported() {
    for fault in [and_of_bits, one_missed, unasserted] {
        let subject = written(fault);
        shown(&stored_texts::written(&subject), "stored text");
    }
    // Roundings, and names that carry a leading zero.
    written(|text| text.replace("RTZ", "RNE"));
    written(|text| text.replace("n1 ", "n01 "));
    // The last line has no end.
    written(|text| text.trim_end().to_owned());
    // The halves of a concat are exchanged.
    written(exchanged);
}

/// Faults beside the text.
const MISJUDGED: [Misjudge; 6] = [
    // Something is written where the text does not fit.
    |number, text, _| {
        if let (TEXT_TOO_LONG, Some(first)) = (number, text.first_mut()) {
            *first = b'(';
        }
        number
    },
    // The root is looked at before the sorts.
    |number, _, out| {
        if number == NO_SORT {
            out[0] = 0;
            return NO_ROOT;
        }
        number
    },
    // A root that is none is told.
    |number, _, out| {
        if number == NO_ROOT {
            out[0] = 1;
        }
        number
    },
    // No zero is told beside 10.
    |number, _, out| {
        if let (TOO_SHORT, Some(told)) = (number, out.first_mut()) {
            *told = 0xa5a5;
        }
        number
    },
    // A byte beyond the text is written.
    |number, text, _| {
        if let (MODELLED, Some(last)) = (number, text.last_mut()) {
            *last = 0;
        }
        number
    },
    // A word beyond the length is written.
    |number, _, out| {
        if let Some(word) = out.get_mut(1) {
            *word = 0;
        }
        number
    },
];

#[test]
fn wrong_answers_of_the_writer_are_reported() {
    for misjudge in MISJUDGED {
        let subject = Faulty {
            misjudge: Some(misjudge),
            ..Faulty::default()
        };
        shown(&texts::run_short(&subject, 5_000, 3), "text of root ");
    }
}

/// A leading zero behind an `n` or an `x` is passed over.
fn without_zero(text: &[u8]) -> Vec<u8> {
    let text = String::from_utf8_lossy(text).into_owned();
    let mut passed = text.clone();
    for digit in '0'..='9' {
        for letter in ["x", "n"] {
            passed = passed.replace(&format!("{letter}0{digit}"), &format!("{letter}{digit}"));
        }
    }
    passed.into_bytes()
}

/// Two blanks are taken for one.
fn without_blanks(text: &[u8]) -> Vec<u8> {
    let blanks = |at: &usize| text[*at] != b' ' || *at == 0 || text[at - 1] != b' ';
    (0..text.len()).filter(blanks).map(|at| text[at]).collect()
}

/// The last line need not be ended.
fn with_end(text: &[u8]) -> Vec<u8> {
    let end: &[u8] = if text.ends_with(b")") { b"\n" } else { b"" };
    [text, end].concat()
}

const MISHEARD: [Mishear; 3] = [without_zero, without_blanks, with_end];

/// Change a word, if it is there.
fn put(words: &mut [u64], at: usize, word: u64) {
    if let Some(there) = words.get_mut(at) {
        *there = word;
    }
}

/// The rows that were read.
fn rows_read<'a>(number: u32, nodes: &'a mut [u64], out: &[u64]) -> &'a mut [[u64; ROW]] {
    let count = if number == MODELLED { out[0] } else { 0 };
    let count = usize::try_from(count).expect("in memory");
    &mut nodes.as_chunks_mut().0[..count]
}

/// Nodes in the order of their lines: those that are declared come first.
fn by_lines(rows: &mut [[u64; ROW]]) {
    let (declared, defined): (Vec<usize>, Vec<usize>) =
        (0..rows.len()).partition(|&node| is_declared(rows[node][0]));
    let order = [declared, defined].concat();
    let moved: Vec<[u64; ROW]> = order.iter().map(|&node| rows[node]).collect();
    rows.copy_from_slice(&moved);
    for row in rows {
        let operands = arity(row[0]);
        for operand in &mut row[1..=operands] {
            let now = order.iter().position(|&node| node as u64 == *operand);
            *operand = now.expect("an earlier node") as u64;
        }
    }
}

/// Faults of a reader.
const MISREAD: [Misread; 12] = [
    // The place is one further.
    |number, _, _, out| {
        if number == NO_TEXT {
            out[0] += 1;
        }
        number
    },
    // The place is one too early.
    |number, _, _, out| {
        if number == NO_TEXT {
            out[0] = out[0].saturating_sub(1);
        }
        number
    },
    // A text that stops early has the place of its last line.
    |number, text, _, out| {
        if number == NO_TEXT && out[0] == text.len() as u64 {
            let line = text.iter().rposition(|&byte| byte == b'\n');
            out[0] = line.map_or(0, |at| at as u64 + 1);
        }
        number
    },
    // Rows are written beside a place.
    |number, _, nodes, _| {
        if number == NO_TEXT {
            put(nodes, 0, 1);
        }
        number
    },
    // Rows are written where not all have room.
    |number, _, nodes, _| {
        if number == NO_NODES {
            put(nodes, 0, 1);
        }
        number
    },
    // The nodes that have no room are counted.
    |number, _, _, out| {
        if number == NO_NODES {
            out[0] = 1;
        }
        number
    },
    // The room is looked at before the text.
    |number, _, nodes, out| {
        if number == NO_TEXT && nodes.len() < ROW {
            out[0] = 0;
            return NO_NODES;
        }
        number
    },
    // The text is looked at before the words to be told.
    |number, _, _, _| {
        if number == TOO_SHORT { NO_TEXT } else { number }
    },
    // A row behind the nodes is written.
    |number, _, nodes, out| {
        let behind = rows_read(number, nodes, out).len() * ROW;
        if number == MODELLED {
            put(nodes, behind, 0);
        }
        number
    },
    // A word behind the one that is told is written.
    |number, _, _, out| {
        put(out, 1, 0);
        number
    },
    // The first two nodes are exchanged.
    |number, _, nodes, out| {
        if let [first, second, ..] = rows_read(number, nodes, out) {
            std::mem::swap(first, second);
        }
        number
    },
    // Nodes stand in the order of their lines.
    |number, _, nodes, out| {
        by_lines(rows_read(number, nodes, out));
        number
    },
];

#[test]
fn wrong_readers_are_reported() {
    let misheard = MISHEARD.map(|mishear| Faulty {
        mishear: Some(mishear),
        ..Faulty::default()
    });
    let misread = MISREAD.map(|misread| Faulty {
        misread: Some(misread),
        ..Faulty::default()
    });
    for (fault, subject) in misread.iter().chain(&misheard).enumerate() {
        let report = text_reads::run_short(subject, 10_000, 3);
        assert!(!report.is_equal(), "fault {fault}");
        shown(&report, "reading of ");
    }
}

/// Of what is read wrongly the list of every text tells as well.
#[test]
fn wrong_readers_of_every_text_are_reported() {
    let further = Faulty {
        misread: Some(MISREAD[0]),
        ..Faulty::default()
    };
    let deaf = Faulty {
        mishear: Some(without_zero),
        ..Faulty::default()
    };
    let by_lines = Faulty {
        misread: Some(MISREAD[11]),
        ..Faulty::default()
    };
    for subject in [further, deaf, by_lines] {
        shown(&every_text::run(&subject, 20_000, 3), "the list says ");
    }
}

#[test]
fn rows_that_are_read_wrongly_are_reported() {
    let subject = Faulty {
        misread: Some(|number, _, nodes, _| {
            for row in nodes.chunks_exact_mut(ROW).filter(|row| row[0] == 12) {
                row[1] += u64::from(number == MODELLED);
            }
            number
        }),
        ..Faulty::default()
    };
    shown(&text_reads::run_short(&subject, 10_000, 3), "reading of ");
    shown(&stored_texts::read(&subject), "stored text");
}

/// A writer with this fault is reported by a solver that reads its texts.
#[track_caller]
fn meant(misspell: Misspell) {
    let subject = Faulty {
        misspell: Some(misspell),
        ..Faulty::default()
    };
    for solver in Solver::ALL {
        if solver.at_hand() {
            let report = text_values::run(&subject, &Library, solver, 40, 3);
            shown(&report.expect("the solver runs"), "meaning of root ");
        } else {
            left_out(&solver.missing());
        }
    }
}

#[test]
fn texts_that_mean_something_else_are_reported() {
    assert!(sleetgate_sys::at_hand(), "{}", sleetgate_sys::MISSING);
    meant(one_missed);
    meant(unasserted);
    meant(|text| text.replace("(bvxor ", "(bvor "));
    meant(|text| text.replace("(fp.lt ", "(fp.leq "));
    meant(exchanged);
}

#[test]
fn without_a_fault_nothing_differs() {
    let subject = Faulty::default();
    for report in [
        texts::run_short(&subject, 2_000, 3),
        text_reads::run_short(&subject, 20_000, 3),
        stored_texts::written(&subject),
        stored_texts::read(&subject),
    ] {
        assert!(report.is_equal(), "{report}");
    }
}
