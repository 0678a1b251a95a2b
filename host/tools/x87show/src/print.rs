//! Terms as text.

use std::collections::{HashMap, HashSet};
use std::fmt::Write;
use std::slice::Iter;

use notes::{Event, Notes, Record, What};
use sleetgate::{Node, Refusal, Statement, Why};

use crate::build::{Built, Read, build, flag_name};
use crate::declined;
use crate::listing::{Listing, named};
use crate::terms::{Id, Term};
use crate::trace::Span;

/// A part of more terms than this has a name of its own.
const LONG: usize = 15;

/// How tightly a choice, signs before a term and whole terms bind.
const CHOICE: u8 = 0;
const SIGN: u8 = 6;
const WHOLE: u8 = 7;

/// The parts of a status word.
const STATUS: [&str; 4] = ["C0", "C2", "C3", "rest"];

/// What is missing without notes.
const ALONE: &str = "without --names: which instruction a line is about, who wrote the flags, \
                     what is assumed of the control word and how the code ends is not shown";

/// The readable text of a listing alone.
pub fn alone(listing: &Listing) -> String {
    let built = build(&listing.nodes);
    let parts = parts(&built, listing, &[&listing.stack]);
    let mut page = Page::new(&built, parts, None, &[]);
    page.words(ALONE);
    for &statement in &listing.statements {
        if let Some(node) = named(statement) {
            page.read_flags(node, &[]);
        }
        page.statement(statement, None);
    }
    page.read_flags(u64::MAX, &[]);
    page.stack(&listing.stack);
    if listing.stack.is_empty() {
        page.words("nothing is known of the stack");
    }
    if let Some((refusal, place)) = listing.refused {
        page.words(&format!("{refusal}, at byte {place} of the records"));
    }
    page.text
}

/// The readable text of a listing with its notes, whose records did this.
pub fn with_notes(listing: &Listing, notes: &Notes, spans: &[Span]) -> String {
    let built = build(&listing.nodes);
    let parts = parts(&built, listing, &shown_stacks(notes, spans));
    let mut page = Page::new(&built, parts, Some(notes), spans);
    for words in &notes.head {
        page.words(words);
    }
    let mut left = spans.iter();
    for event in &notes.events {
        page.arrive(event.address);
        let What::Record(record) = &event.what else {
            page.event(event);
            continue;
        };
        match left.next() {
            Some(span) => page.record(record, span, listing),
            None => {
                page.refused(record, listing.refused);
                break;
            }
        }
    }
    page.text
}

/// The stacks that the notes ask for.
fn shown_stacks<'a>(notes: &Notes, spans: &'a [Span]) -> Vec<&'a [u64]> {
    let mut left = spans.iter();
    let (mut now, mut all): (&[u64], _) = (&[], Vec::new());
    for event in &notes.events {
        match &event.what {
            What::Record(_) => now = left.next().map_or(now, |span| &span.stack),
            What::Stack(_) => all.push(now),
            _ => {}
        }
    }
    all
}

/// Whether each term is written as a part of its own: where it is used
/// more than once, or is long.
fn parts(built: &Built, listing: &Listing, stacks: &[&[u64]]) -> Vec<bool> {
    let mut uses = vec![0; built.terms.len()];
    let values = listing.statements.iter().filter_map(|&s| value(s));
    for node in values.chain(stacks.iter().copied().flatten().copied()) {
        uses[of(built, node)] += 1;
    }
    // Parts come before the whole.
    for id in (0..uses.len()).rev() {
        if uses[id] > 0 {
            for part in built.terms.get(id).parts() {
                uses[part] += 1;
            }
        }
    }
    let mut sizes = vec![1; uses.len()];
    let mut parts: Vec<bool> = uses.iter().map(|&uses| uses > 1).collect();
    for id in 0..parts.len() {
        let term = built.terms.get(id);
        for part in term.parts() {
            parts[part] |= sizes[part] > LONG;
            sizes[id] += if parts[part] { 1 } else { sizes[part] };
        }
        parts[id] &= !matches!(term, Term::Leaf(_));
    }
    parts
}

/// The node whose value a statement writes.
fn value(statement: Statement) -> Option<u64> {
    match statement {
        Statement::Load { .. } => None,
        _ => named(statement),
    }
}

/// The term of a node of the list.
fn of(built: &Built, node: u64) -> Id {
    built.of[usize::try_from(node).unwrap_or(usize::MAX)]
}

/// Where the lifter's stack begins: what lies below it is what was there.
#[derive(Debug, Clone, Copy, PartialEq, Eq)]
enum Ground {
    Entry,
    /// It was forgotten at this instruction.
    Behind(u64),
    /// It was forgotten on coming to this instruction from elsewhere.
    Coming(u64),
}

impl Ground {
    fn words(self) -> String {
        match self {
            Self::Entry => "on entry".to_owned(),
            Self::Behind(address) => format!("behind {address:x}"),
            Self::Coming(address) => format!("on coming to {address:x}"),
        }
    }
}

/// A text under way.
struct Page<'a> {
    built: &'a Built,
    notes: Option<&'a Notes>,
    spans: &'a [Span],
    /// Digits of the longest address.
    digits: usize,
    /// The instruction that lines are about.
    address: Option<u64>,
    /// Whether each term is written as a part of its own.
    parts: Vec<bool>,
    /// What such a term is called, once it is written.
    called: Vec<Option<String>>,
    lets: u32,
    /// Flags that are still to be read.
    reads: Iter<'a, Read>,
    /// What each input is, and those of which it is said.
    inputs: HashMap<u64, String>,
    told: HashSet<u64>,
    /// Where the stack begins, and how many places below were taken.
    ground: Ground,
    taken: u64,
    /// Instructions that were declined when they were last met.
    declined: HashSet<u64>,
    /// Whether the last record went elsewhere.
    left: bool,
    /// The stack as it is now.
    places: Vec<u64>,
    text: String,
}

impl<'a> Page<'a> {
    fn new(
        built: &'a Built,
        parts: Vec<bool>,
        notes: Option<&'a Notes>,
        spans: &'a [Span],
    ) -> Self {
        let events = notes.iter().flat_map(|notes| &notes.events);
        let digits = events.map(|event| format!("{:x}", event.address).len());
        Self {
            digits: digits.max().unwrap_or(0),
            parts,
            called: vec![None; built.terms.len()],
            lets: 0,
            reads: built.reads.iter(),
            inputs: HashMap::new(),
            told: HashSet::new(),
            ground: Ground::Entry,
            taken: 0,
            declined: HashSet::new(),
            left: false,
            places: Vec::new(),
            address: None,
            text: String::new(),
            built,
            notes,
            spans,
        }
    }

    fn line(&mut self, line: &str) {
        self.line_at(self.address, line);
    }

    fn line_at(&mut self, address: Option<u64>, line: &str) {
        let _ = match address {
            Some(address) => writeln!(
                self.text,
                "{address:>digits$x}: {line}",
                digits = self.digits
            ),
            None => writeln!(self.text, "{line}"),
        };
    }

    /// A line of words.
    fn words(&mut self, words: &str) {
        self.line(&format!("-- {words}"));
    }

    /// Lines are about the instruction at this address; behind a jump or a
    /// return, it was come to from elsewhere.
    fn arrive(&mut self, address: u64) {
        if self.left && self.address != Some(address) {
            self.ground = Ground::Coming(address);
            self.left = false;
        }
        self.address = Some(address);
    }

    /// What happens between the records.
    fn event(&mut self, event: &Event) {
        match &event.what {
            What::Begin(name) => {
                self.words(&format!("{name} begins here"));
                if self.places.is_empty() && self.ground != Ground::Entry {
                    (self.ground, self.taken) = (Ground::Entry, 0);
                }
            }
            What::Arrive => {
                self.words("also entered from elsewhere");
                (self.ground, self.taken) = (Ground::Coming(event.address), 0);
            }
            What::Remark(words) => self.words(words),
            What::Stack(words) => {
                let places = self.places.clone();
                for &node in &places {
                    self.introduce(of(self.built, node));
                }
                self.words(words);
                self.stack(&places);
                self.below();
            }
            What::Record(_) => {}
        }
    }

    /// What a record did.
    fn record(&mut self, record: &Record, span: &Span, listing: &Listing) {
        if let Some(last) = span.nodes.clone().next_back() {
            self.read_flags(last as u64, &record.reads);
        }
        for &node in &listing.nodes[span.nodes.clone()] {
            self.input(node, span);
        }
        for &statement in &listing.statements[span.statements.clone()] {
            self.statement(statement, Some((record, span)));
        }
        self.declined.remove(&span.address);
        if span.declined {
            self.declined.insert(span.address);
            self.ground = if record.text.is_empty() {
                Ground::Coming(span.address)
            } else {
                Ground::Behind(span.address)
            };
            self.taken = 0;
            self.left = ["ret", "iret", "jmp"]
                .iter()
                .any(|name| record.text.starts_with(name));
        }
        self.places.clone_from(&span.stack);
    }

    /// Note what an input is: a place below the stack, the free pattern of
    /// a load, or the rest of a status word.
    fn input(&mut self, node: Node, span: &Span) {
        let Node::Input { number, bits } = node else {
            return;
        };
        let words = if bits == 16 {
            "the rest of the status word".to_owned()
        } else if span.loads_image {
            "the number where the 80 bits that are loaded are none".to_owned()
        } else {
            let place = self.taken;
            self.taken += 1;
            format!("st({place}) {}", self.ground.words())
        };
        self.inputs.insert(number, words);
    }

    /// The instruction that did not fit, and what to do.
    fn refused(&mut self, record: &Record, refused: Option<(Refusal, u64)>) {
        let Some((refusal, _)) = refused else { return };
        let advice = match refusal {
            Refusal::NodeRoom | Refusal::StatementRoom => {
                "x87lift has room for 1,024 nodes and 256 statements: follow one way (x87rec \
                 --path) or take a shorter part of the text"
            }
            _ => "x87rec writes no such record: run the pipe again",
        };
        self.words(&format!("{}: {refusal}; {advice}", record.text));
        self.words("what stands above holds up to here; nothing is known of what follows");
    }

    /// What a statement says; with notes, of its record and what that did.
    fn statement(&mut self, statement: Statement, of: Option<(&Record, &Span)>) {
        let line = match statement {
            Statement::Load {
                node,
                address,
                bits,
            } => {
                let address = self.place(address);
                format!("{} := {address}, {bits} bits", self.formula(node))
            }
            Statement::Store { address, node, .. } => {
                let address = self.place(address);
                format!("{address} := {}", self.formula(node))
            }
            Statement::Status { node } => format!("fsw := {}", self.formula(node)),
            Statement::Flag { flag, node } => {
                format!("{} := {}", flag_name(flag), self.formula(node))
            }
            Statement::Ax { node } => format!("ax := {}", self.formula(node)),
            Statement::Unsupported { answer, address } => match of {
                Some((record, span)) => self.declined(answer, record, span),
                None => format!("-- {address:#x}: {answer}: the stack is forgotten here"),
            },
        };
        self.line(&line);
    }

    /// What is said of a decline: where `x87rec` made the lifter decline,
    /// its reason.
    fn declined(&self, answer: Why, record: &Record, span: &Span) -> String {
        let begin = match record.text.as_str() {
            "" => String::new(),
            text => format!("{text}: "),
        };
        let words = match (answer, &record.why) {
            (Why::Form(_), Some(why)) => why.clone(),
            _ => declined::words(&span.insn, answer),
        };
        let stored = match record.writes {
            None => String::new(),
            Some(0) => ", and where and what it stores is not known".to_owned(),
            Some(number) => {
                let place = self.place(number.into());
                format!(", and what it stores to {place} is not known")
            }
        };
        format!("-- {begin}{words}: the stack is forgotten here{stored}")
    }

    /// An address number's text.
    fn place(&self, number: u64) -> String {
        let text = self.notes.and_then(|notes| notes.address(number));
        text.map_or_else(|| format!("[address {number}]"), str::to_owned)
    }

    /// Say which flags were read up to a node, and who wrote them.
    fn read_flags(&mut self, node: u64, words: &[(String, String)]) {
        while let Some(read) = self.reads.as_slice().first() {
            if read.node > node {
                break;
            }
            self.reads.next();
            let who = words.iter().find(|(of, _)| of == read.of);
            let who = who.map_or(String::new(), |(_, words)| self.who(words));
            self.line(&format!("{} := {}{who}", read.name, read.of));
        }
    }

    /// Who wrote what is read, and whether the lifter declined that.
    fn who(&self, words: &str) -> String {
        let wrote = |address: &u64| words.contains(&format!(" at {address:x} wrote it"));
        let end = match self.declined.iter().any(wrote) {
            true => ": not modelled",
            false => "",
        };
        format!(", {words}{end}")
    }

    fn stack(&mut self, stack: &[u64]) {
        for (place, &node) in stack.iter().enumerate() {
            let line = format!("st({place}) = {}", self.formula(node));
            self.line(&line);
        }
    }

    /// Say what lies below the known places.
    fn below(&mut self) {
        let (ground, known) = (self.ground, !self.places.is_empty());
        let less = match self.taken {
            0 => String::new(),
            taken => format!(", less its first {taken}"),
        };
        let words = match (ground, known) {
            (Ground::Entry, false) => format!("the stack is as it was on entry{less}"),
            (Ground::Entry, true) => format!("below, the stack is as it was on entry{less}"),
            (ground, false) => format!("nothing is known of the stack {}", ground.words()),
            (ground, true) => format!("nothing more is known of the stack {}", ground.words()),
        };
        self.words(&words);
    }

    /// The formula of a node, behind the lines of its named parts.
    fn formula(&mut self, node: u64) -> String {
        let id = of(self.built, node);
        self.introduce(id);
        self.written(id, CHOICE)
    }

    /// Write the named parts of a term, and the term if it is one, each
    /// with the address of the instruction that made it; and say what the
    /// inputs are.
    fn introduce(&mut self, id: Id) {
        if self.called[id].is_some() {
            return;
        }
        for part in self.built.terms.get(id).parts() {
            self.introduce(part);
        }
        if let Some(&number) = self.built.inputs.get(&id) {
            self.tell_input(id, number);
        }
        if self.parts[id] {
            let formula = self.spelled(id, CHOICE);
            self.lets += 1;
            let name = format!("t{}", self.lets);
            self.line_at(self.maker(id), &format!("let {name} = {formula}"));
            self.called[id] = Some(name);
        }
    }

    fn tell_input(&mut self, id: Id, number: u64) {
        let Some(words) = self.inputs.get(&number) else {
            return;
        };
        if self.told.insert(number) {
            let line = format!("-- in{number} is {words}");
            self.line_at(self.maker(id), &line);
        }
    }

    /// The instruction that first made a term.
    fn maker(&self, id: Id) -> Option<u64> {
        let node = self.built.made[id];
        let at = self.spans.partition_point(|span| span.nodes.end <= node);
        self.spans.get(at).map(|span| span.address)
    }

    /// A term's name, or its formula, in brackets where it binds less
    /// than is asked for.
    fn written(&self, id: Id, least: u8) -> String {
        match &self.called[id] {
            Some(name) => name.clone(),
            None => self.spelled(id, least),
        }
    }

    fn spelled(&self, id: Id, least: u8) -> String {
        let (text, strength) = match self.built.terms.get(id) {
            Term::Leaf(text) => (text.clone(), WHOLE),
            Term::Call(name, parts) => (self.call(name, parts), WHOLE),
            Term::Infix(operator, a, b) => {
                let strength = operator.strength();
                let (a, b) = (self.written(*a, strength), self.written(*b, strength + 1));
                (format!("{a} {} {b}", operator.sign()), strength)
            }
            Term::Before(sign, a) => (format!("{sign}{}", self.written(*a, WHOLE)), SIGN),
            Term::Choice(a, b, c) => {
                let [a, b, c] = [a, b, c].map(|part| self.written(*part, CHOICE + 1));
                (format!("{a} ? {b} : {c}"), CHOICE)
            }
            Term::Slice(a, hi, lo) => {
                let mut text = self.written(*a, WHOLE);
                let _ = if hi == lo {
                    write!(text, "[{hi}]")
                } else {
                    write!(text, "[{hi}:{lo}]")
                };
                (text, WHOLE)
            }
        };
        if strength < least {
            return format!("({text})");
        }
        text
    }

    fn call(&self, name: &str, parts: &[Id]) -> String {
        let parts = parts.iter().map(|&part| self.written(part, CHOICE));
        let parts: Vec<String> = if name == "status" {
            let named = STATUS.iter().zip(parts);
            named
                .map(|(part, text)| format!("{part}: {text}"))
                .collect()
        } else {
            parts.collect()
        };
        format!("{name}({})", parts.join(", "))
    }
}
