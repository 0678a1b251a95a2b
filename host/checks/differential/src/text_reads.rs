//! SMT-LIB text that is read, compared with the reader that is written from
//! the definition of the subset.

use std::collections::BTreeSet;

use plain::smt::{arity, compact, marked, needed, text};
use plain::sorts::Sort;
use plain::state::ROW;
use plain::{MODELLED, NO_TEXT};

use crate::formulas::{List, lifted, random};
use crate::instructions::Grid;
use crate::report::Report;
use crate::rng::Rng;
use crate::subject::{Plain, Texts};
use crate::texts;

/// Words that a case may lend to be told, and what they hold.
pub(crate) const WORDS: usize = 3;
const WORDS_BEFORE: [u64; WORDS] = [0xa5a5, 0x5a5a, 0x1111];

/// What a lent word of a list holds.
const WORD: u64 = 0xa5a5_0000_5a5a_0000;

/// The largest room of a list, and a row of 16 bits.
const MOST: usize = 65_535;
const UNMARKED: [u64; ROW] = [4, 0, 0, 0];

/// Nodes of a random list: mostly few, since a text is damaged everywhere.
const FEW: usize = 12;
const MANY: usize = 60;

/// Texts that are read back for each that is damaged.
const READ_BACK: usize = 40;

/// Bytes of a text, and others.
const BYTES: &[u8] = b"0123456789_nx#() =.bBdefRTNEZ\n\0\xff";

/// Numbers about the limits of a text's, and words with one.
const ODD: [&str; 16] = [
    "0",
    "00",
    "1",
    "16",
    "26",
    "64",
    "79",
    "80",
    "81",
    "n65534",
    "n65535",
    "x65535",
    "65536",
    "18446744073709551615",
    "18446744073709551616",
    "99999999999999999999",
];

/// What one call is lent.
#[derive(Debug, Clone)]
pub(crate) struct Case {
    pub text: Vec<u8>,
    /// Words lent for the nodes, and to be told.
    pub nodes: usize,
    pub words: usize,
}

/// A number, and what was lent after the call.
#[derive(Debug, Clone, PartialEq, Eq)]
pub(crate) struct Answer {
    pub number: u32,
    pub words: [u64; WORDS],
    nodes: Vec<u64>,
}

impl Case {
    pub fn asked(&self, subject: &dyn Texts) -> Answer {
        let (mut words, mut nodes) = (WORDS_BEFORE, vec![WORD; self.nodes]);
        let number = subject.smt_read(&self.text, &mut nodes, &mut words[..self.words]);
        Answer {
            number,
            words,
            nodes,
        }
    }
}

/// Compare the reading of a text of the greatest length, and of up to `size`
/// others.
pub fn run(subject: &dyn Texts, size: u64, seed: u64) -> Report {
    let mut report = Report::default();
    let chain = texts::chain();
    read_back(subject, &chain, chain.len() - 1, &mut report);
    random_texts(subject, size, seed, report)
}

/// Compare the reading of `size` texts of a few nodes.
pub fn run_short(subject: &dyn Texts, size: u64, seed: u64) -> Report {
    random_texts(subject, size, seed, Report::default())
}

fn random_texts(subject: &dyn Texts, size: u64, seed: u64, mut report: Report) -> Report {
    let grid = Grid::default();
    let mut rng = Rng::new(seed);
    let mut last = good(&grid, &mut rng);
    while report.compared < size {
        for _ in 0..READ_BACK {
            let list = texts::list(&grid, &mut rng);
            let root = rng.below(list.len());
            read_back(subject, &list, root, &mut report);
        }
        let text = good(&grid, &mut rng);
        for case in rooms(&text) {
            compare(subject, &case, &text, &mut report);
        }
        for (name, all) in damaged(&text, &last, &mut rng) {
            report.note(name, all.len() as u64);
            for bytes in all {
                compare(subject, &lent(bytes, &mut rng), &text, &mut report);
            }
        }
        last = text;
    }
    report
}

/// What is written is read as the nodes that are needed.
fn read_back(subject: &dyn Texts, list: &List, root: usize, report: &mut Report) {
    let rows = list.nodes.as_chunks().0;
    let marks = needed(rows, root);
    let text = text(rows, &list.sorts, &marks);
    let rows = compact(&marked(rows, &marks));
    let mut nodes = rows.concat();
    nodes.resize(nodes.len() + ROW, WORD);
    let expected = Answer {
        number: MODELLED,
        words: [rows.len() as u64, WORDS_BEFORE[1], WORDS_BEFORE[2]],
        nodes,
    };
    report.count(MODELLED);
    report.note("texts that are read back", 1);
    let case = Case {
        text: text.into_bytes(),
        nodes: expected.nodes.len(),
        words: WORDS,
    };
    let got = case.asked(subject);
    if got != expected {
        report.differs(|| say(&case, &expected, &got));
    }
}

/// A text of the subset: what some nodes of a list need.
fn good(grid: &Grid, rng: &mut Rng) -> Vec<u8> {
    let list = if rng.one_in(4) {
        lifted(grid, rng).first(FEW)
    } else {
        let most = if rng.one_in(16) { MANY } else { FEW };
        let length = rng.between(1, most);
        random(rng, length)
    };
    let marks = kept(&list, rng);
    let numbers = numbers(list.len(), rng);
    renumbered(&list, &marks, &numbers).into_bytes()
}

/// Numbers for so many nodes: from 0 on, with small gaps, anywhere, or up to
/// the last that there can be.
fn numbers(length: usize, rng: &mut Rng) -> Vec<usize> {
    match rng.below(5) {
        0 => {
            let mut next = 0;
            let gaps = (0..length).map(|_| {
                next += rng.between(1, 4);
                next - 1
            });
            gaps.collect()
        }
        1 => {
            let mut numbers = BTreeSet::new();
            while numbers.len() < length {
                numbers.insert(rng.below(MOST));
            }
            numbers.into_iter().collect()
        }
        2 => (MOST - length..MOST).collect(),
        _ => (0..length).collect(),
    }
}

/// The text of the marked nodes of a list, where the nodes have these
/// numbers, and others between them are not marked.
fn renumbered(list: &List, marks: &[bool], numbers: &[usize]) -> String {
    let length = numbers.last().map_or(0, |last| last + 1);
    let mut rows = vec![UNMARKED; length];
    let mut sorts = vec![Sort::Bits(16); length];
    let mut kept = vec![false; length];
    let old: &[[u64; ROW]] = list.nodes.as_chunks().0;
    for (node, &number) in numbers.iter().enumerate() {
        let mut row = old[node];
        let operands = arity(row[0]);
        for operand in &mut row[1..=operands] {
            *operand = numbers[usize::try_from(*operand).expect("an earlier node")] as u64;
        }
        (rows[number], sorts[number], kept[number]) = (row, list.sorts[node], marks[node]);
    }
    text(&rows, &sorts, &kept)
}

/// Marks of one node or of a few, and of all that they need.
fn kept(list: &List, rng: &mut Rng) -> Vec<bool> {
    let mut marks = vec![false; list.len()];
    for _ in 0..rng.between(1, 3) {
        marks[rng.below(list.len())] = true;
    }
    let rows: &[[u64; ROW]] = list.nodes.as_chunks().0;
    for node in (0..list.len()).rev() {
        if marks[node] {
            for &operand in rows[node][1..].iter().take(arity(rows[node][0])) {
                marks[usize::try_from(operand).expect("an earlier node")] = true;
            }
        }
    }
    marks
}

/// Calls on a text with as much room as its nodes need, with more, with less
/// and with none, and without a word to be told.
fn rooms(text: &[u8]) -> Vec<Case> {
    let lines = lines(text);
    let asserted = |line: &&&[u8]| line.starts_with(b"(assert");
    let needed = (lines.len() - lines.iter().filter(asserted).count()) * ROW;
    let rooms = [needed, needed + ROW, needed - 1, needed - ROW, 0];
    let case = |nodes, words| Case {
        text: text.to_vec(),
        nodes,
        words,
    };
    let mut cases: Vec<Case> = rooms.into_iter().map(|nodes| case(nodes, 1)).collect();
    cases.push(case(needed, 0));
    cases
}

/// Bytes by what was done to them.
type Damaged = [(&'static str, Vec<Vec<u8>>); 5];

/// A text cut at every length; with every byte replaced, left out or doubled,
/// or another text's behind it; with every word replaced; with lines changed;
/// and random bytes.
fn damaged(text: &[u8], other: &[u8], rng: &mut Rng) -> Damaged {
    let cut = (0..text.len()).map(|cut| text[..cut].to_vec()).collect();
    let mut lines = lines_changed(text, other, rng);
    lines.push([text, other].concat());
    let any = (0..rng.below(40)).map(|_| rng.byte()).collect();
    let alike = (0..rng.below(40)).map(|_| *rng.pick(BYTES)).collect();
    [
        ("texts that are cut", cut),
        ("with a byte changed", bytes_changed(text, other, rng)),
        ("with a word changed", words_changed(text, other, rng)),
        ("with lines changed", lines),
        ("random bytes", vec![any, alike]),
    ]
}

fn bytes_changed(text: &[u8], other: &[u8], rng: &mut Rng) -> Vec<Vec<u8>> {
    let mut all = Vec::new();
    for at in 0..text.len() {
        for _ in 0..3 {
            let mut bytes = text.to_vec();
            bytes[at] = *rng.pick(BYTES);
            all.push(bytes);
        }
        match rng.below(4) {
            0 => all.push([&text[..at], &text[at + 1..]].concat()),
            1 => all.push([&text[..=at], &text[at..]].concat()),
            2 => all.push([&text[..at], &[*rng.pick(BYTES)], &text[at..]].concat()),
            _ => all.push([&text[..at], &other[rng.below(other.len())..]].concat()),
        }
    }
    all
}

/// The words of a text: names, numbers and the parts of names.
fn words(text: &[u8]) -> Vec<&[u8]> {
    let words = text.split(|byte| !byte.is_ascii_alphanumeric());
    words.filter(|word| !word.is_empty()).collect()
}

/// With each word replaced by another one, or by an odd number.
fn words_changed(text: &[u8], other: &[u8], rng: &mut Rng) -> Vec<Vec<u8>> {
    let (own, others) = (words(text), words(other));
    let mut all = Vec::new();
    let mut end = 0;
    for word in &own {
        let at = text[end..]
            .windows(word.len())
            .position(|part| part == *word);
        let begin = end + at.expect("a word of the text");
        end = begin + word.len();
        let new = match rng.below(4) {
            0 => rng.pick(&ODD).as_bytes(),
            1 => rng.pick(&others),
            _ => rng.pick(&own),
        };
        all.push([&text[..begin], new, &text[end..]].concat());
    }
    all
}

fn lines(text: &[u8]) -> Vec<&[u8]> {
    text.split_inclusive(|&byte| byte == b'\n').collect()
}

/// With a line left out, doubled, taken from another text, and two exchanged.
fn lines_changed(text: &[u8], other: &[u8], rng: &mut Rng) -> Vec<Vec<u8>> {
    let (lines, others) = (lines(text), lines(other));
    let mut all = Vec::new();
    for (at, &line) in lines.iter().enumerate() {
        for more in [line, *rng.pick(&others)] {
            let mut longer = lines.clone();
            longer.insert(at, more);
            all.push(longer.concat());
        }
        let mut shorter = lines.clone();
        shorter.remove(at);
        all.push(shorter.concat());
        let mut swapped = lines.clone();
        swapped.swap(at, rng.below(lines.len()));
        all.push(swapped.concat());
    }
    all
}

/// The call on some bytes: mostly with room for a node in each line.
fn lent(text: Vec<u8>, rng: &mut Rng) -> Case {
    let lines = text.iter().filter(|&&byte| byte == b'\n').count();
    let nodes = match rng.below(16) {
        0 => rng.below(lines * ROW + 1),
        1 => lines * ROW,
        _ => lines * ROW + rng.below(2 * ROW),
    };
    let words = if rng.one_in(64) {
        rng.below(WORDS)
    } else {
        WORDS
    };
    Case { text, nodes, words }
}

fn compare(subject: &dyn Texts, case: &Case, good: &[u8], report: &mut Report) {
    let expected = case.asked(&Plain);
    report.count(expected.number);
    let place = usize::try_from(expected.words[0]).unwrap_or(usize::MAX);
    match expected.number {
        MODELLED if case.text == good => report.note("texts as they were written", 1),
        MODELLED => report.note("texts that are another's", 1),
        NO_TEXT if place == case.text.len() => report.note("places at the end", 1),
        NO_TEXT if good.starts_with(&case.text[..place]) => report.note("places at the damage", 1),
        NO_TEXT => report.note("places behind the damage", 1),
        _ => {}
    }
    let got = case.asked(subject);
    if got != expected {
        report.differs(|| say(case, &expected, &got));
    }
}

pub(crate) fn say(case: &Case, expected: &Answer, got: &Answer) -> String {
    format!(
        "reading of a text, {} words lent for nodes, {} to be told\n{}\n\
         expected {expected:?}\ngot      {got:?}",
        case.nodes,
        case.words,
        String::from_utf8_lossy(&case.text)
    )
}
