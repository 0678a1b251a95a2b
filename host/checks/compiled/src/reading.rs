//! The shown text, read from top to bottom beside a run.
//!
//! Each line stands for a visit of its instruction on the way that the run
//! took. Two lines that follow each other at one address are of one visit,
//! unless the second tells a jump's decision: between two visits of an
//! instruction there is a conditional jump, and each has its line. A `let`
//! and the words that say what an input is stand for an earlier
//! instruction, above the line that needs them: they are read with it.
//!
//! What the text loads, or does not know, is taken from the run; what it
//! says of stores, flags, status words, `ax` and the stack is compared.

use std::collections::{BTreeMap, HashMap};
use std::fmt::Debug;

use crate::beside::Beside;
use crate::code::Instruction;
use crate::extended::Extended;
use crate::formula::{self, Value};
use crate::run::Step;

/// The flags and their places in the processor's word.
const FLAGS: [(&str, u32); 5] = [("CF", 0), ("PF", 2), ("ZF", 6), ("SF", 7), ("OF", 11)];

/// C0, C2 and C3 in the status word.
const CONDITIONS: u16 = 1 << 8 | 1 << 10 | 1 << 14;

/// What is said of each rounding and each precision, by their numbers in
/// the control word.
const ROUNDINGS: [&str; 4] = [
    "the code rounds to nearest even",
    "the code rounds down, as floor does",
    "the code rounds up, as ceil does",
    "the code rounds toward zero",
];
const PRECISIONS: [&str; 4] = ["24 bits", "", "53 bits", "64 bits"];

/// As many lines as any visit must have.
const ENOUGH: usize = 5;

/// How often each kind of line was compared, or taken from the run.
pub type Counts = BTreeMap<&'static str, usize>;

/// Compare a text with a run.
///
/// # Errors
/// The first line that is not what the machine did.
pub fn compare<'a>(
    text: &'a str,
    beside: Beside<'a>,
    counts: &'a mut Counts,
) -> Result<(), String> {
    let mut reading = Reading {
        beside,
        at: 0,
        waiting: Vec::new(),
        known: HashMap::new(),
        written: HashMap::new(),
        places: HashMap::new(),
        told: BTreeMap::new(),
        stack: 0,
        forgotten: false,
        ended: false,
        counts,
    };
    for line in text.lines() {
        reading.line(line).map_err(|why| format!("{line}: {why}"))?;
    }
    reading.finish()
}

struct Reading<'a> {
    beside: Beside<'a>,
    /// The visit of the line before.
    at: usize,
    /// Lines that are read with the next one.
    waiting: Vec<(u32, &'a str)>,
    known: HashMap<String, Value>,
    /// What the text last said of a flag or the status word, and at which
    /// address.
    written: HashMap<&'a str, (u32, Value)>,
    /// The real address of each place.
    places: HashMap<String, u32>,
    /// How many lines there were for each visit; enough, where it was
    /// declined.
    told: BTreeMap<usize, usize>,
    /// Places of the stack that were told at the end.
    stack: usize,
    forgotten: bool,
    ended: bool,
    counts: &'a mut Counts,
}

type Told = Result<(), String>;

impl<'a> Reading<'a> {
    fn line(&mut self, line: &'a str) -> Told {
        if line.starts_with("--") {
            return Ok(());
        }
        let (address, body) = line.split_once(": ").ok_or("no address")?;
        let address = hexadecimal(address.trim()).ok_or("no address")?;
        if body.starts_with("let ") || input(body).is_some() {
            self.waiting.push((address, body));
            return Ok(());
        }
        let decision = decision(body);
        self.go_to(address, decision.is_some())?;
        for (address, part) in std::mem::take(&mut self.waiting) {
            self.part(address, part)?;
        }
        match decision {
            Some(taken) => self.jump(taken),
            None => self.body(body),
        }
    }

    /// There is a line more for the visit.
    fn tell(&mut self, lines: usize) {
        *self.told.entry(self.at).or_default() += lines;
    }

    /// A part of the line's formula, or an input in it.
    fn part(&mut self, address: u32, part: &str) -> Told {
        if let Some((name, what)) = input(part) {
            let value = self.input(what)?;
            self.count("inputs");
            self.known.insert(name.to_owned(), value);
            return Ok(());
        }
        let part = part.strip_prefix("let ").ok_or("what is this?")?;
        let (name, formula) = part.split_once(" = ").ok_or("no formula")?;
        let value = self.value(formula)?;
        self.known.insert(name.to_owned(), value);
        self.count("parts");
        match value {
            Value::Number(number) if !self.was_made(number, address) => {
                Err(format!("{address:x} left {number:x?} nowhere"))
            }
            _ => Ok(()),
        }
    }

    /// Whether a place of the stack held a number behind some visit of an
    /// instruction.
    fn was_made(&self, number: Extended, address: u32) -> bool {
        self.beside.visits_of(address, self.at).any(|at| {
            let behind = self.beside.behind(at);
            (0..8).any(|place| behind.st(place).is_some_and(|held| held.is_same(number)))
        })
    }

    fn body(&mut self, body: &str) -> Told {
        if let Some(words) = body.strip_prefix("-- ") {
            return self.words(words);
        }
        self.tell(1);
        if let Some((place, formula)) = body.split_once(" = ")
            && place.starts_with("st(")
        {
            return self.stack(place, formula);
        }
        let (left, right) = body.split_once(" := ").ok_or("what is this?")?;
        self.assignment(left, right)
    }

    fn words(&mut self, words: &str) -> Told {
        if words.contains(": the stack is forgotten here") {
            self.forgotten = true;
            self.tell(ENOUGH);
        }
        if let Some((_, what)) = words.split_once(": from here on ") {
            return self.control(what);
        }
        if words.contains(" ends here, ") {
            return self.end(words);
        }
        Ok(())
    }

    /// Where the way ends, and whether that is the return.
    fn end(&mut self, words: &str) -> Told {
        self.ended = true;
        same(self.at + 1, self.beside.visits.len())?;
        let told = words.contains(" ends here, at the return");
        let real = self.beside.instruction(self.at);
        same(told, real.is_some_and(|code| code.name == "ret"))
    }

    /// Go to the visit of a line; to the next one, where this one's
    /// decision was told.
    fn go_to(&mut self, address: u32, decision: bool) -> Told {
        let told = decision && self.told.contains_key(&self.at);
        let found = self.beside.next(self.at + usize::from(told), address);
        self.at = found.ok_or("the run does not come here")?;
        Ok(())
    }

    /// The state before the instruction of the line.
    fn before(&self) -> &'a Step {
        self.beside.before(self.at)
    }

    /// The state behind it.
    fn behind(&self) -> &'a Step {
        self.beside.behind(self.at)
    }

    /// The state behind the last visit of an address.
    fn behind_last(&self, address: u32) -> Result<&'a Step, String> {
        let step = self.beside.behind_last(address, self.at);
        Ok(step.ok_or("the run did not come there")?)
    }

    fn value(&self, formula: &str) -> Result<Value, String> {
        formula::value(formula, &self.known)
    }

    fn count(&mut self, what: &'static str) {
        *self.counts.entry(what).or_default() += 1;
    }

    fn jump(&mut self, told: bool) -> Told {
        let behind = self.beside.code.behind(self.before().ip);
        let taken = behind != Some(self.behind().ip);
        self.tell(1);
        self.count("jumps");
        same(told, taken)
    }

    /// What an input is: what a place of the stack held on entry or behind
    /// an instruction, or what the line's own instruction left.
    fn input(&self, what: &str) -> Result<Value, String> {
        if what == "the rest of the status word" {
            return Ok(Value::Bits(self.behind().status.into(), 16));
        }
        if what == "the number where the 80 bits that are loaded are none" {
            return Ok(Value::Held);
        }
        let (place, step) = if let Some(place) = what.strip_suffix(" on entry") {
            (place, self.beside.before(0))
        } else {
            let (place, address) = what.split_once(" behind ").ok_or("what is this input?")?;
            let address = hexadecimal(address).ok_or("behind what?")?;
            (place, self.behind_last(address)?)
        };
        let place = place_of_stack(place).ok_or("which place?")?;
        let held = step.st(place).ok_or("an empty place of the stack")?;
        Ok(Value::Number(held))
    }

    /// What is said of the control word that was loaded.
    fn control(&mut self, what: &str) -> Told {
        let (entry, real) = (self.beside.before(0).control, self.behind().control);
        self.tell(1);
        self.count("control words");
        let what = what.split(", if ").next().unwrap_or(what);
        if what == "the control word is that of the entry" {
            return same(entry, real);
        }
        let (rounding, precision) = what.split_once(", precision ").ok_or("no precision")?;
        let told = ROUNDINGS.iter().position(|words| *words == rounding);
        same(told, Some(usize::from(real >> 10 & 3)))?;
        let told = PRECISIONS.iter().position(|words| *words == precision);
        same(told, Some(usize::from(real >> 8 & 3)))
    }

    fn stack(&mut self, text: &str, formula: &str) -> Told {
        let place = place_of_stack(text).ok_or("which place?")?;
        let told = self.value(formula)?.number()?;
        let real = self.beside.last().st(place).ok_or("the place is empty")?;
        self.count("places of the stack");
        self.stack += 1;
        if told.is_same(real) {
            return Ok(());
        }
        Err(format!("told {told:x?}, real {real:x?}"))
    }

    fn assignment(&mut self, left: &str, right: &str) -> Told {
        if let Some(place) = left.strip_prefix('[') {
            return self.store(place.strip_suffix(']').ok_or("no place")?, right);
        }
        if let Some(load) = right.strip_prefix('[') {
            return self.load(left, load);
        }
        if let Some((name, how)) = right.split_once(", ")
            && (name == "fsw" || flag(name).is_some())
        {
            return self.read(left, name, how);
        }
        if let Some(&(name, bit)) = FLAGS.iter().find(|(name, _)| *name == left) {
            let told = self.value(right)?.truth()?;
            self.written
                .insert(name, (self.before().ip, Value::Truth(told)));
            self.count("flags");
            return same(told, self.behind().flags >> bit & 1 == 1);
        }
        match left {
            "fsw" => self.status(right),
            "ax" => self.ax(right),
            _ => Err("what is this?".to_owned()),
        }
    }

    fn status(&mut self, formula: &str) -> Told {
        let value = self.value(formula)?;
        self.written.insert("fsw", (self.before().ip, value));
        self.count("status words");
        same(conditions(value)?, self.behind().status & CONDITIONS)
    }

    fn ax(&mut self, formula: &str) -> Told {
        let Value::Bits(told, 16) = self.value(formula)? else {
            return Err("ax has 16 bits".to_owned());
        };
        self.count("ax");
        same(told, u128::from(self.behind().general[0] & 0xffff))
    }

    /// A flag or the status word is read: the text says who wrote it.
    fn read(&mut self, name: &str, what: &str, how: &str) -> Told {
        let real = match flag(what) {
            Some(bit) => Value::Truth(self.before().flags >> bit & 1 == 1),
            None => Value::Bits(self.before().status.into(), 16),
        };
        let value = match how
            .strip_prefix("as ")
            .and_then(|how| how.split_once(" at "))
        {
            Some((writer, how)) => self.writer(what, writer, how)?.unwrap_or(real),
            None => real,
        };
        self.count("flags read");
        self.known.insert(name.to_owned(), value);
        match (value, real) {
            (Value::Truth(told), Value::Truth(real)) => same(told, real),
            _ => same(conditions(value)?, conditions(real)?),
        }
    }

    /// The value that a writer gave a flag or the status word, where the
    /// text says it: integer code and what is not modelled leave it to the
    /// run, which must not have changed the flag since.
    fn writer(&self, what: &str, writer: &str, how: &str) -> Result<Option<Value>, String> {
        let (address, how) = how.split_once(' ').ok_or("who wrote it?")?;
        let address = hexadecimal(address).ok_or("who wrote it?")?;
        let code = self.beside.code.at(address).ok_or("no such instruction")?;
        if code.name != writer {
            return Err(format!("{} stands at {address:x}", code.name));
        }
        let behind = self.behind_last(address)?;
        let all = how == "wrote it";
        if all || how == "wrote it, C1, TOP and exceptions aside" {
            let written = self.written.get(what).filter(|(by, _)| *by == address);
            let (_, value) = written.ok_or("the text does not say what it wrote")?;
            if all {
                return Ok(Some(*value));
            }
            let status = Value::Bits(self.before().status.into(), 16);
            same(conditions(*value)?, conditions(status)?)?;
        }
        Ok(flag(what).map(|bit| Value::Truth(behind.flags >> bit & 1 == 1)))
    }

    fn load(&mut self, name: &str, load: &str) -> Told {
        let (place, width) = load.split_once("], ").ok_or("no width")?;
        let width = width
            .strip_suffix(" bits")
            .and_then(|width| width.parse().ok());
        let (address, bits) = self.place(place)?;
        same(width, Some(bits))?;
        let loaded = self.beside.memory_before(self.at, address, bits);
        let loaded = loaded.ok_or("memory that is not known")?;
        let value = match self.behind().st(0) {
            Some(held) if bits == 80 => Value::Image(loaded, held),
            _ => Value::Bits(loaded, bits),
        };
        self.count("loads");
        self.known.insert(name.to_owned(), value);
        Ok(())
    }

    fn store(&mut self, place: &str, formula: &str) -> Told {
        let (address, bits) = self.place(place)?;
        let told = self.value(formula)?;
        let real = self.beside.memory_behind(self.at, address, bits);
        let real = real.ok_or("memory that is not known")?;
        self.count("stores");
        if told.is_memory(real, bits)? {
            return Ok(());
        }
        Err(format!("told {told:x?}, real {real:x}"))
    }

    /// The real address and width of the instruction's memory operand,
    /// which must be those of the place in the text. A text stands for one
    /// place only.
    fn place(&mut self, text: &str) -> Result<(u32, u32), String> {
        let told = self.beside.place(self.at, text);
        let (real, bits) = self.beside.operand(self.at).ok_or("no memory operand")?;
        same(told, Some(real))?;
        let before = self.places.insert(text.to_owned(), real);
        same(before.unwrap_or(real), real)?;
        Ok((real, bits))
    }

    /// Each visit has its lines; and where nothing was forgotten, so has
    /// each place of the stack.
    fn finish(self) -> Told {
        for at in 0..self.beside.visits.len() {
            let least = self.beside.instruction(at).map_or(0, least);
            if self.told.get(&at).copied().unwrap_or(0) < least {
                return Err(format!("no line for {:x}", self.beside.before(at).ip));
            }
        }
        if !self.ended {
            return Err("the end is not told".to_owned());
        }
        let last = self.beside.last();
        let full = (0..8).filter(|&place| last.st(place).is_some()).count();
        if self.stack > full || !self.forgotten && self.stack < full {
            return Err(format!("{} places of {full} are told", self.stack));
        }
        Ok(())
    }
}

/// How many lines a visit of an instruction has at least: one for what it
/// loads or stores, and one for each flag or word that it writes. Nothing
/// is said of a control word that is stored.
fn least(code: &Instruction) -> usize {
    let name = code.name.as_str();
    let memory = name.starts_with('f') && name != "fnstcw" && code.memory().is_some();
    let writes = match name {
        "fcomi" | "fcomip" | "fucomi" | "fucomip" => 5,
        "fnstsw" => 2,
        "fcom" | "fcomp" | "fcompp" | "fucom" | "fucomp" | "fucompp" => 1,
        _ if code.is_conditional_jump() => 1,
        _ => 0,
    };
    writes + usize::from(memory)
}

/// What a line says of a conditional jump.
fn decision(body: &str) -> Option<bool> {
    let jump = body.strip_prefix("-- j")?;
    if jump.ends_with(": taken") {
        return Some(true);
    }
    jump.ends_with(": not taken").then_some(false)
}

/// An input's name and what it is, where a line says that.
fn input(body: &str) -> Option<(&str, &str)> {
    let (name, what) = body.strip_prefix("-- ")?.split_once(" is ")?;
    let number = name.strip_prefix("in")?;
    number.parse::<u32>().ok()?;
    Some((name, what))
}

fn place_of_stack(text: &str) -> Option<usize> {
    text.strip_prefix("st(")?.strip_suffix(')')?.parse().ok()
}

fn flag(name: &str) -> Option<u32> {
    FLAGS
        .iter()
        .find(|(flag, _)| *flag == name)
        .map(|&(_, bit)| bit)
}

/// C0, C2 and C3 of a status word.
fn conditions(value: Value) -> Result<u16, String> {
    match value {
        Value::Bits(bits, 16) => Ok(u16::try_from(bits).unwrap_or(0) & CONDITIONS),
        value => Err(format!("{value:?} is no status word")),
    }
}

fn hexadecimal(text: &str) -> Option<u32> {
    u32::from_str_radix(text, 16).ok()
}

fn same<T: Copy + PartialEq + Debug>(told: T, real: T) -> Told {
    if told == real {
        return Ok(());
    }
    Err(format!("told {told:x?}, real {real:x?}"))
}
