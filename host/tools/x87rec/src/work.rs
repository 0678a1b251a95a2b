//! A translation under way.

use std::collections::{BTreeSet, HashMap};

use notes::{Event, Notes, Record, What};
use sleetgate::{Instruction, MOST_OPERANDS, Operand, Place as Numbers, write_record};

use crate::control::{Verdict, loaded, verdict};
use crate::effects::{FLAG_COMPARES, FLAG_NAMES, is_x87, reads, reads_status, stores};
use crate::flow::Callees;
use crate::line::Code;
use crate::machine::{Calls, Change, Machine, Writer};
use crate::operand::Numbering;
use crate::passing::passes;
use crate::path::{Step, Way};
use crate::place::Place;
use crate::{MOST_BYTES, Options, Translated, Wrong};

/// The name of a record that stands for an entry from elsewhere.
const ENTRY: &str = "entry";

/// What stands before the name of an instruction that the lifter must not
/// model: no name that it knows begins so.
const UNMODELLED: char = '?';

/// Compares that the lifter models, by which the status word is known.
const STATUS_COMPARES: [&str; 8] = [
    "fcom", "fcomp", "fcompp", "fucom", "fucomp", "fucompp", "ficom", "ficomp",
];

/// Instructions that store or load the control word alone.
const CONTROL: [&str; 3] = ["fldcw", "fnstcw", "fstcw"];

/// From where a line is come to, besides the one above it.
#[derive(Debug, Clone, Copy, PartialEq, Eq)]
pub enum From {
    Above,
    Call,
    Jump,
}

/// The records so far.
pub struct Work<'a> {
    done: Translated,
    /// Bytes of records so far.
    bytes: usize,
    numbering: Numbering,
    /// Whether the lifter has no stack to carry on: at the beginning, and
    /// after a record that it is sure to decline.
    forgotten: bool,
    /// Whether a call was met.
    called: bool,
    /// Address numbers that were stored to, and whether one is read again.
    stored: BTreeSet<u32>,
    reloads: bool,
    names: HashMap<u64, &'a str>,
    /// The places that x87 instructions name, and their bytes; those of
    /// control words are left out.
    used: Vec<(Place, i64)>,
    callees: &'a Callees,
    options: &'a Options,
}

impl<'a> Work<'a> {
    pub fn new<'b>(
        options: &'a Options,
        callees: &'a Callees,
        code: impl Iterator<Item = (&'a Code, &'b Machine)> + Clone,
    ) -> Self {
        let counts = |name: &str| is_x87(name) && !CONTROL.contains(&name);
        let x87 = code.clone().filter(|(code, _)| counts(&code.name));
        let mut used: Vec<_> = x87
            .flat_map(|(code, machine)| machine.places(code))
            .collect();
        used.sort_unstable();
        used.dedup();
        Self {
            done: Translated::default(),
            bytes: 0,
            numbering: Numbering::default(),
            forgotten: true,
            called: false,
            stored: BTreeSet::new(),
            reloads: false,
            names: code
                .map(|(code, _)| (code.address, code.name.as_str()))
                .collect(),
            used,
            callees,
            options,
        }
    }

    /// A line of the whole text.
    pub fn line(&mut self, code: &Code, machine: &Machine, from: From) -> Result<(), Wrong> {
        let before = &code.before;
        let entered = before.broken || before.symbol.is_some() || from != From::Above;
        let arrives = entered && self.forgotten;
        if entered && !self.forgotten {
            self.entry(code.address);
        }
        if let Some(name) = &before.symbol {
            self.event(code.address, What::Begin(name.clone()));
        }
        if arrives && from == From::Jump {
            self.event(code.address, What::Arrive);
        }
        if code.is_return() {
            self.stack(code, "a return, with this stack");
        } else if code.is_indirect() {
            let words = "goes where the text does not tell: \
                         formulas at its targets may not be those of the lines before them";
            self.remark(code, words);
        } else if code.is_conditional() && !self.options.every {
            self.remark(code, "what follows holds where it is not taken");
        }
        self.code(code, machine, false)
    }

    /// A line of a way.
    pub fn step(&mut self, step: &Step, machine: &Machine) -> Result<(), Wrong> {
        let code = &step.code;
        let what = match &code.before.symbol {
            Some(name) if self.done.lines == 0 => Some(What::Begin(name.clone())),
            Some(name) => Some(What::Remark(format!("the way goes on in {name}"))),
            None => None,
        };
        if let Some(what) = what {
            self.event(code.address, what);
        }
        match step.taken {
            Some(true) => self.remark(code, "taken"),
            Some(false) => self.remark(code, "not taken"),
            None => {}
        }
        self.code(code, machine, true)
    }

    fn code(&mut self, code: &Code, machine: &Machine, followed: bool) -> Result<(), Wrong> {
        self.done.lines += 1;
        let jumps = code.name.starts_with('j') || code.is_conditional();
        let goes_on = followed && (jumps || code.is_return() || code.is_stop());
        let control = CONTROL.contains(&code.name.as_str()) && !self.options.assume_reset;
        let passes = goes_on || control || passes(&code.name, &code.operands);
        if code.name == "fldcw" && control {
            self.loads(code, machine);
        }
        if passes && !self.options.every {
            self.overwrites(code, machine);
            *self.done.passed.entry(code.name.clone()).or_default() += 1;
            return Ok(());
        }
        self.record(code, machine)
    }

    /// Say that integer code writes where x87 instructions read or write.
    fn overwrites(&mut self, code: &Code, machine: &Machine) {
        let written = machine.written(code, self.callees);
        let overlaps = |(place, bytes): &&(Place, i64)| {
            written.iter().any(|(other, more)| {
                place.is_beside(other)
                    && place.offset < other.offset.saturating_add(*more)
                    && other.offset < place.offset.saturating_add(*bytes)
            })
        };
        let pointer = self.pointer();
        let named = self.used.iter().filter(overlaps);
        let mut places: Vec<String> = named
            .map(|(place, _)| place.text(pointer, |_| true))
            .collect();
        places.dedup();
        if !places.is_empty() {
            let words = format!("writes to {}, which is not lifted", places.join(", "));
            self.remark(code, &words);
        }
    }

    /// Hand an instruction over, as what it is under the control word.
    fn record(&mut self, code: &Code, machine: &Machine) -> Result<(), Wrong> {
        let mut insn = self.numbering.instruction(code, machine)?;
        let place = insn.operands.first().and_then(number);
        let writes = place.filter(|_| stores(code));
        match (place, writes) {
            (_, Some(place)) => drop(self.stored.insert(place)),
            (Some(place), None) => self.reloads |= self.stored.contains(&place),
            _ => {}
        }
        let judged = self.judge(&mut insn, code, machine);
        let why = judged.or_else(|| crowded(code));
        let record = Record {
            bytes: bytes(&insn),
            text: code.text(),
            why,
            writes,
            reads: self.reads(code, machine),
        };
        // All names that the lifter models begin with an `f`.
        self.forgotten = !insn.mnemonic.starts_with('f');
        self.fits(record.bytes.len())?;
        self.event(code.address, What::Record(record));
        if !is_x87(&code.name) {
            self.overwrites(code, machine);
        }
        if code.is_call() {
            self.called = true;
            self.doubt(code, machine);
        }
        Ok(())
    }

    /// Make an instruction what it is under the control word; why the
    /// lifter must not model it, where that is so.
    fn judge(&mut self, insn: &mut Instruction, code: &Code, machine: &Machine) -> Option<String> {
        if self.options.assume_reset {
            return None;
        }
        match verdict(code, machine.control, &self.since(machine.changed)) {
            Verdict::AsIs => None,
            Verdict::Truncates(name) => {
                let words = format!("rounds toward zero here, and is lifted as {name}");
                self.remark(code, &words);
                name.clone_into(&mut insn.mnemonic);
                None
            }
            Verdict::Declined(words) => {
                let name = format!("{UNMODELLED}{}", code.name);
                *insn = Instruction::new(code.address, name, []);
                Some(words)
            }
        }
    }

    /// Whether `x87lift` takes so many bytes more, and the end mark.
    fn fits(&mut self, more: usize) -> Result<(), Wrong> {
        self.bytes += more;
        if self.bytes + 2 <= MOST_BYTES {
            return Ok(());
        }
        let why = format!(
            "more records than the {MOST_BYTES} bytes that x87lift takes: \
             take one function (--function) or one way (--path)"
        );
        Err(Wrong { line: 0, why })
    }

    /// Since when the control word may be another than that of the entry.
    fn since(&self, change: Option<Change>) -> String {
        match change {
            None => String::new(),
            Some(Change::Meeting(line)) => {
                format!(", since the control word differs by the way to {line:x}")
            }
            Some(Change::At(address)) => match self.names.get(&address) {
                Some(&"fldcw") => format!(", since fldcw at {address:x} loaded the control word"),
                Some(name) => {
                    format!(", since {name} at {address:x} may have changed the control word")
                }
                None => String::new(),
            },
        }
    }

    /// Who wrote what an instruction reads.
    fn reads(&self, code: &Code, machine: &Machine) -> Vec<(String, String)> {
        let mut all = Vec::new();
        let flags = FLAG_NAMES.iter().zip(machine.flags);
        for ((name, writer), read) in flags.zip(reads(&code.name)) {
            if read {
                let words = self.written(writer, &FLAG_COMPARES);
                all.push(((*name).to_owned(), words));
            }
        }
        if reads_status(&code.name) {
            let mut words = self.written(machine.status, &STATUS_COMPARES);
            if machine.disturbed {
                words += ", C1, TOP and exceptions aside";
            }
            all.push(("fsw".to_owned(), words));
        }
        all
    }

    fn written(&self, writer: Writer, compares: &[&str]) -> String {
        let address = match writer {
            Writer::Entry => return "as it was on entry".to_owned(),
            Writer::Several => return "which the text does not know".to_owned(),
            Writer::At(address) => address,
        };
        let name = self
            .names
            .get(&address)
            .copied()
            .unwrap_or("the instruction");
        if compares.contains(&name) {
            format!("as {name} at {address:x} wrote it")
        } else if is_x87(name) || name == "call" {
            format!("as {name} at {address:x} left it: not modelled")
        } else {
            format!("as {name} at {address:x} wrote it: integer code")
        }
    }

    /// What `fldcw` loads.
    fn loads(&mut self, code: &Code, machine: &Machine) {
        let mut behind = machine.clone();
        behind.step(code, self.callees);
        let mut words = loaded(behind.control);
        if let Some(crossed) = behind.control.crossed {
            words += &format!(", if no store from {crossed:x} on went where that word was kept");
        }
        self.remark(code, &words);
    }

    /// Say what a call may do, and where the stack pointer is no longer
    /// known.
    fn doubt(&mut self, code: &Code, machine: &Machine) {
        if machine.hands_out() {
            let words = "may write to places on the stack: an address there was handed out";
            self.remark(code, words);
        }
        if self.callees.is_doubtful(code) {
            let pointer = self.pointer();
            let words = format!(
                "may take its arguments from the stack: {pointer} is not known behind it, \
                 and places are counted from {pointer}@{:x}",
                code.address
            );
            self.remark(code, &words);
        }
    }

    fn pointer(&self) -> &'static str {
        if self.callees.word() == 8 {
            "rsp"
        } else {
            "esp"
        }
    }

    /// How a way ends.
    pub fn end(&mut self, way: &Way) {
        let Some(last) = way.steps.last() else {
            return;
        };
        let words = way.end.words();
        self.stack(&last.code, &words);
    }

    /// The end of a text that does not end at a return.
    pub fn off(&mut self, last: Option<&Code>) {
        let records = self.done.notes.records().count();
        if let Some(last) = last.filter(|_| !self.forgotten || records == 0) {
            self.stack(last, "the text ends here, with this stack");
        }
    }

    fn entry(&mut self, address: u64) {
        let entry = Instruction::new(address, ENTRY, []);
        let record = Record {
            bytes: bytes(&entry),
            text: String::new(),
            why: Some("entered from elsewhere".to_owned()),
            writes: None,
            reads: Vec::new(),
        };
        self.event(address, What::Record(record));
        self.done.entries += 1;
        self.forgotten = true;
    }

    fn remark(&mut self, code: &Code, words: &str) {
        let words = format!("{}: {words}", code.text());
        self.event(code.address, What::Remark(words));
    }

    fn stack(&mut self, code: &Code, words: &str) {
        let words = format!("{}: {words}", code.text());
        self.event(code.address, What::Stack(words));
    }

    fn event(&mut self, address: u64, what: What) {
        self.done.notes.events.push(Event { address, what });
    }

    /// The translation, with these words on what was followed.
    pub fn done(mut self, followed: &str) -> Translated {
        let addresses = self.numbering.texts(self.pointer());
        let head = self.head(followed, &addresses);
        self.done.notes = Notes {
            failed: None,
            head,
            addresses,
            events: self.done.notes.events,
        };
        self.done
    }

    /// What holds for the whole text.
    fn head(&self, followed: &str, addresses: &[String]) -> Vec<String> {
        let pointer = self.pointer();
        let word = if self.options.assume_reset {
            "assume-reset: every rounding is shown as to nearest even with extended precision, \
             whatever the code loads into the control word"
        } else {
            "assumed: on entry the control word rounds to nearest even with extended precision \
             (64 bits); with another word no formula here need hold"
        };
        let mut head = vec![word.to_owned(), followed.to_owned()];
        if self.numbering.names_entry() {
            head.push(format!(
                "{pointer}0 is the stack pointer on entry, where the return address is"
            ));
        }
        if addresses.iter().any(|text| text.contains('@')) {
            let words = "a register @ an address is as the instruction there left it, #2 at its \
                         second turn; @@ as it is on coming there";
            head.push(words.to_owned());
        }
        if self.called {
            let kept = match pointer {
                "rsp" => "rbx, rbp, r12 to r15",
                _ => "ebx, ebp, esi, edi",
            };
            head.push(format!(
                "calls are taken to keep what the calling convention keeps: the control word, \
                 their caller's places on the stack whose address was not handed out, and {kept}"
            ));
        }
        if self.reloads {
            let words = "a load takes what memory holds at that moment: since a store to the \
                         same place, other pointers and calls may have written there";
            head.push(words.to_owned());
        }
        head
    }
}

/// Why an x87 instruction is handed over without its operands, where a
/// record has no room for them.
fn crowded(code: &Code) -> Option<String> {
    let count = code.operands.len();
    let crowded = is_x87(&code.name) && count > MOST_OPERANDS;
    crowded.then(|| format!("it has {count} operands, and no name takes so many"))
}

/// The address number of a memory operand, 0 where it is not known.
fn number(operand: &Operand) -> Option<u32> {
    match operand {
        Operand::Memory { place, .. } => Some(match place {
            Numbers::Unknown => 0,
            Numbers::Address(address) | Numbers::Slot { address, .. } => *address,
        }),
        _ => None,
    }
}

/// The record of an instruction.
fn bytes(insn: &Instruction) -> Vec<u8> {
    let mut bytes = Vec::new();
    write_record(insn, &mut bytes).expect("texts are short and operands are few");
    bytes
}
