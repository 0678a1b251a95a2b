//! What `x87rec` believes of the integer code of a text, held against a
//! run: who wrote the flags, where places are, what `fldcw` loads, which
//! rounding there is, and that what it passes over leaves the x87 unit
//! alone.
//!
//! Lines of a probe, which runs jump over, are held against the machine
//! at the next visit.

use std::collections::{BTreeMap, HashMap};

use notes::{Event, Notes, Record, What};
use x87rec::passes;

use crate::beside::Beside;
use crate::code::Instruction;
use crate::place;
use crate::run::Step;

/// The flags and their places in the processor's word.
pub const FLAGS: [(&str, u32); 3] = [("CF", 0), ("PF", 2), ("ZF", 6)];

/// C0, C2 and C3 in the status word, and the words by which no more of it
/// is told.
const ASIDE: &str = ", C1, TOP and exceptions aside";
const CONDITIONS: u16 = 1 << 8 | 1 << 10 | 1 << 14;

/// What is said of each rounding and each precision, by their numbers in
/// the control word.
const ROUNDINGS: [&str; 4] = [
    "rounds to nearest even",
    "rounds down, as floor does",
    "rounds up, as ceil does",
    "rounds toward zero",
];
const PRECISIONS: [&str; 4] = ["24 bits", "", "53 bits", "64 bits"];

/// Jumps over a probe.
pub const PROBES: [&str; 2] = ["jno", "jo"];

/// Words that may stand before a name.
const PREFIXES: [&str; 7] = ["addr16", "data16", "ds", "lock", "rep", "repnz", "repz"];

/// Addresses from here on in the arena are those of the stack.
pub const STACK: u32 = 512;

/// How often each kind of belief was held against a run.
pub type Counts = BTreeMap<&'static str, usize>;

type Told = Result<(), String>;

/// Hold all that is believed of a way against a run that took it. The way
/// has no turns.
///
/// # Errors
/// The first belief that is not true.
pub fn way(notes: &Notes, beside: Beside, counts: &mut Counts) -> Told {
    let mut held = Held::new(notes, beside, counts);
    for event in &notes.events {
        let here = held.coming(event.address);
        let told = here.and_then(|here| held.event(here, event));
        told.map_err(|why| format!("{:x}: {why}", event.address))?;
    }
    held.passed()
}

/// Hold all that is believed of a whole text against a run.
///
/// # Errors
/// The first belief that is not true.
pub fn whole(notes: &Notes, beside: Beside, counts: &mut Counts) -> Told {
    let mut held = Held::new(notes, beside, counts);
    held.turns = true;
    (0..beside.visits.len()).try_for_each(|at| held.visit(at))?;
    held.passed()
}

/// An instruction of the run.
#[derive(Debug, Clone, Copy)]
struct Here<'a> {
    /// The visit, or the next one where the run jumped over it.
    at: usize,
    is_visited: bool,
    code: &'a Instruction,
}

struct Held<'a> {
    notes: &'a Notes,
    beside: Beside<'a>,
    /// The real address of each place, by its number.
    places: HashMap<u32, u32>,
    /// Whether the control word was loaded under a condition that the run
    /// does not meet.
    void: bool,
    /// Whether a line may stand for many visits.
    turns: bool,
    counts: &'a mut Counts,
}

impl<'a> Held<'a> {
    fn new(notes: &'a Notes, beside: Beside<'a>, counts: &'a mut Counts) -> Self {
        Self {
            notes,
            beside,
            places: HashMap::new(),
            void: false,
            turns: false,
            counts,
        }
    }

    /// The lines of a visit, and those of a probe that it jumps over. Where
    /// it jumps, the text does not go on.
    fn visit(&mut self, at: usize) -> Told {
        let (ip, next) = (self.beside.before(at).ip, self.beside.behind(at).ip);
        let code = self.beside.code;
        let skips = code
            .at(ip)
            .is_some_and(|code| PROBES.contains(&code.name.as_str()));
        let last = if skips { next } else { ip + 1 };
        let notes = self.notes;
        let from = |address: u32| {
            let address = address.into();
            notes
                .events
                .partition_point(|event| event.address < address)
        };
        notes.events[from(ip)..from(last)]
            .iter()
            .try_for_each(|event| {
                let is_visited = event.address == ip.into();
                let address = u32::try_from(event.address).ok();
                let code = address.and_then(|address| code.at(address));
                let here = Here {
                    at: at + usize::from(!is_visited),
                    is_visited,
                    code: code.ok_or("no instruction")?,
                };
                let told = self.event(here, event);
                told.map_err(|why| format!("{:x}, visit {at}: {why}", event.address))
            })?;
        if code.behind(ip) != Some(next) && !skips {
            self.places.clear();
        }
        Ok(())
    }

    fn event(&mut self, here: Here, event: &Event) -> Told {
        match &event.what {
            What::Record(record) if record.text.is_empty() => {
                self.places.clear();
                Ok(())
            }
            What::Record(record) => {
                for (name, words) in &record.reads {
                    self.read(here, name, words)?;
                }
                self.place(here, record)?;
                self.rounding(here, record)
            }
            What::Remark(words) => match words.split_once(": from here on ") {
                Some((_, words)) => self.loaded(here, words),
                None => Ok(()),
            },
            _ => Ok(()),
        }
    }

    /// Where the run comes to an address of the way.
    fn coming(&self, address: u64) -> Result<Here<'a>, String> {
        let address = u32::try_from(address).map_err(|_| "a long address")?;
        let visits = 0..self.beside.visits.len();
        let mut coming = visits.filter(|&at| self.beside.before(at).ip >= address);
        let at = coming.next().ok_or("the run does not come here")?;
        Ok(Here {
            at,
            is_visited: self.beside.before(at).ip == address,
            code: self.beside.code.at(address).ok_or("no instruction")?,
        })
    }

    fn count(&mut self, kind: &'static str) {
        *self.counts.entry(kind).or_default() += 1;
    }

    /// A flag or the status word is still what it was behind its writer.
    fn read(&mut self, here: Here, name: &str, words: &str) -> Told {
        let (words, aside) = match words.strip_suffix(ASIDE) {
            Some(words) => (words, CONDITIONS),
            None => (words, u16::MAX),
        };
        let Some(writer) = self.writer(here, words)? else {
            return Ok(());
        };
        let now = self.beside.before(here.at);
        self.count(if name == "fsw" { "status" } else { "flags" });
        let (told, real) = (value(writer, name, aside), value(now, name, aside));
        if told.is_some() && told == real {
            return Ok(());
        }
        Err(format!("{name} is {real:?}, {words}, {told:?}"))
    }

    /// The state behind a writer, where one is told.
    fn writer(&self, here: Here, words: &str) -> Result<Option<&'a Step>, String> {
        if words == "as it was on entry" {
            return Ok(Some(self.beside.before(0)));
        }
        let Some((_, address)) = words.split_once(" at ") else {
            return Ok(None);
        };
        let address = address.split(' ').next().and_then(hexadecimal);
        let behind = address.and_then(|address| self.beside.behind_last(address, here.at));
        behind.map(Some).ok_or(format!("{words}: who?"))
    }

    /// The address of the memory operand.
    fn operand(&self, here: Here) -> Option<u32> {
        let general = self.beside.before(here.at).general;
        let (_, sum) = here.code.operands.split_once('[')?;
        let (sum, _) = sum.split_once(']')?;
        place::address(sum, |name| Some(general[place::register(name)?]))
    }

    /// A place is where it is told to be, and one number is one address.
    fn place(&mut self, here: Here, record: &Record) -> Told {
        let Some(number) = number(&record.bytes) else {
            return Ok(());
        };
        let real = self.operand(here).ok_or("no operand")?;
        let text = self.notes.address(number.into()).ok_or("no such place")?;
        let sum = text.strip_prefix('[').and_then(|sum| sum.strip_suffix(']'));
        let told = sum.and_then(|sum| {
            if self.turns {
                return self.beside.place_of_turn(here.at, sum);
            }
            self.beside.place(here.at, sum)
        });
        self.count("places");
        if told != Some(real) {
            return Err(format!("{text} is {told:x?}, not {real:x}"));
        }
        match self.places.insert(number, real) {
            Some(other) if other != real => {
                Err(format!("{text} is {real:x} here and was {other:x}"))
            }
            _ => Ok(()),
        }
    }

    /// An instruction that rounds, and that is lifted, does so under a word
    /// that it is lifted for.
    fn rounding(&mut self, here: Here, record: &Record) -> Told {
        let Some((lifted, takes)) = mnemonic(&record.bytes).zip(takes(here.code)) else {
            return Ok(());
        };
        if lifted.starts_with('?') || !here.is_visited || self.void {
            return Ok(());
        }
        let word = self.beside.before(here.at).control;
        let (rounding, precision) = fields(word);
        let truncates = lifted == "fisttp";
        let rounds = rounding == if truncates { 3 } else { 0 };
        self.count(if truncates {
            "truncations"
        } else {
            "roundings"
        });
        if rounds && (takes == Takes::Rounding || precision == 3) {
            return Ok(());
        }
        Err(format!("lifted as {lifted} under {word:x}"))
    }

    /// What `fldcw` loads is as it is told, unless an instruction wrote
    /// there of which it is said that it must not.
    fn loaded(&mut self, here: Here, words: &str) -> Told {
        let (what, unless) = words.split_once(", if ").unwrap_or((words, ""));
        let claim = Claim::of(what).ok_or("what is this?")?;
        let void = self.writes_stack(unless, here.at);
        if here.is_visited {
            self.void = void;
        }
        if claim.is_nothing() || void {
            return Ok(());
        }
        let place = self.operand(here).ok_or("no operand")?;
        let word = self.beside.memory_before(here.at, place, 16);
        let word = word.and_then(|word| u16::try_from(word).ok());
        let word = word.ok_or("the word is not in the arena")?;
        self.count("words");
        if claim.holds(word) {
            return Ok(());
        }
        Err(format!("{word:x} is loaded: {words}"))
    }

    /// Whether an instruction, from the one that is named on, changed memory
    /// of the stack. A word may be kept there by way of any pointer.
    fn writes_stack(&self, condition: &str, at: usize) -> bool {
        let Some(first) = condition.split(' ').find_map(hexadecimal) else {
            return false;
        };
        let stack = self.beside.run.arena.address + STACK;
        let mut visits = (0..at).filter(|&visit| self.beside.before(visit).ip >= first);
        visits.any(|visit| {
            let mut changes = self.beside.changes(visit);
            changes.any(|(place, _)| place >= stack)
        })
    }

    /// What is passed over leaves the x87 unit alone.
    fn passed(&mut self) -> Told {
        let visits = 0..self.beside.visits.len();
        let passed = visits.filter(|&at| self.beside.instruction(at).is_some_and(passes_over));
        let passed: Vec<usize> = passed.collect();
        *self.counts.entry("passed").or_default() += passed.len();
        let touched = passed.into_iter().find(|&at| {
            let before = self.beside.before(at);
            !self.beside.behind(at).has_x87_of(before)
        });
        match touched {
            Some(at) => Err(format!("{:?} is passed", self.beside.instruction(at))),
            None => Ok(()),
        }
    }
}

/// What is said of a word that is loaded: rounding and precision, where
/// they are known.
struct Claim {
    rounding: Option<usize>,
    precision: Option<usize>,
}

impl Claim {
    fn of(words: &str) -> Option<Self> {
        let (rounding, precision) = match words {
            "the rounding is not known" => (None, None),
            "the control word is that of the entry" => (Some(0), Some(3)),
            _ => {
                let words = words.strip_prefix("the code ")?;
                let (rounding, precision) = words.rsplit_once(", precision ")?;
                let known = ROUNDINGS.iter().position(|words| *words == rounding)?;
                let bits = PRECISIONS.iter().position(|words| *words == precision);
                if bits.is_none() && precision != "not known" {
                    return None;
                }
                (Some(known), bits)
            }
        };
        Some(Self {
            rounding,
            precision,
        })
    }

    fn is_nothing(&self) -> bool {
        self.rounding.is_none() && self.precision.is_none()
    }

    fn holds(&self, word: u16) -> bool {
        let (rounding, precision) = fields(word);
        self.rounding.is_none_or(|told| told == rounding)
            && self.precision.is_none_or(|told| told == precision)
    }
}

/// The numbers of rounding and precision in a control word.
fn fields(word: u16) -> (usize, usize) {
    (usize::from(word >> 10 & 3), usize::from(word >> 8 & 3))
}

/// A flag, or these bits of the status word.
fn value(step: &Step, name: &str, bits: u16) -> Option<u32> {
    if name == "fsw" {
        return Some((step.status & bits).into());
    }
    let (_, bit) = FLAGS.iter().find(|(known, _)| *known == name)?;
    Some(step.flags >> bit & 1)
}

fn hexadecimal(text: &str) -> Option<u32> {
    u32::from_str_radix(text, 16).ok()
}

/// The name in a record.
fn mnemonic(record: &[u8]) -> Option<&str> {
    let length = usize::from(*record.get(10)?);
    str::from_utf8(record.get(11..11 + length)?).ok()
}

/// The address number of the one operand of a record, if that is memory
/// with an address.
pub fn number(record: &[u8]) -> Option<u32> {
    let operands = record.get(11 + mnemonic(record)?.len()..)?;
    let [1, 1, _, _, known, number @ ..] = operands else {
        return None;
    };
    let number = number.first_chunk().filter(|_| *known != 0)?;
    Some(u32::from_le_bytes(*number))
}

/// What an instruction takes from the control word.
#[derive(Debug, Clone, Copy, PartialEq, Eq)]
enum Takes {
    Rounding,
    All,
}

fn takes(code: &Instruction) -> Option<Takes> {
    let bits = code.memory().map_or(80, |(bits, _)| bits);
    match code.name.as_str() {
        "fist" | "fistp" | "frndint" => Some(Takes::Rounding),
        "fst" | "fstp" if bits < 80 => Some(Takes::Rounding),
        "fadd" | "faddp" | "fiadd" | "fsub" | "fsubp" | "fsubr" | "fsubrp" | "fisub" | "fisubr"
        | "fmul" | "fmulp" | "fimul" | "fdiv" | "fdivp" | "fdivr" | "fdivrp" | "fidiv"
        | "fidivr" | "fsqrt" => Some(Takes::All),
        _ => None,
    }
}

/// The name of an instruction without its prefixes.
pub fn name(code: &Instruction) -> &str {
    let words = code.operands.split_whitespace();
    let mut words = [code.name.as_str()].into_iter().chain(words);
    let name = words.find(|word| !PREFIXES.contains(word));
    name.unwrap_or(&code.name)
}

/// Whether `x87rec` passes over an instruction.
fn passes_over(code: &Instruction) -> bool {
    let operands = code.operands.split(',').map(str::to_owned);
    passes(name(code), &operands.collect::<Vec<_>>())
}
