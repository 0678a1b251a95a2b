//! What is known of the integer machine at a line: where the stack
//! pointer is, which value each register has, what was stored of the
//! control word, who wrote the flags.

use crate::address::{immediate, in_segment, memory, width};
use crate::control::changed;
use crate::effects::{self, FLAGS};
use crate::line::Code;
use crate::memory::{Memory, Value};
use crate::names::{Part, RAX, RBP, RCX, RDI, RDX, REGISTERS, RSI, RSP, is_half, register};
use crate::passing::passes;
use crate::place::{Place, Term, Version, sum};
use crate::word::Word;

/// Registers that a call may change, in 32-bit and in 64-bit code.
const LOST_32: [usize; 3] = [RAX, RCX, RDX];
const LOST_64: [usize; 9] = [RAX, RCX, RDX, RSI, RDI, 8, 9, 10, 11];

/// Who wrote a flag last.
#[derive(Debug, Clone, Copy, PartialEq, Eq)]
pub enum Writer {
    Entry,
    At(u64),
    /// One instruction or another.
    Several,
}

/// What makes the control word another than that of the entry.
#[derive(Debug, Clone, Copy, PartialEq, Eq)]
pub enum Change {
    /// An instruction that changed it, or may have.
    At(u64),
    /// Ways that meet here with different words.
    Meeting(u64),
}

#[derive(Debug, Clone, Copy, PartialEq, Eq)]
struct Register {
    value: Value,
    version: Version,
}

/// What is known at a line.
#[derive(Debug, Clone, PartialEq, Eq)]
pub struct Machine {
    /// How often a way came to the line, this time included.
    pub visit: u32,
    /// Whether registers have 64 bits, of which a name may be half.
    is_long: bool,
    registers: [Register; REGISTERS],
    memory: Memory,
    pub control: Word,
    /// Where the control word was last changed, or may have been.
    pub changed: Option<Change>,
    pub flags: [Writer; FLAGS],
    pub status: Writer,
    /// Whether x87 code has run since, which moves TOP and may raise
    /// exceptions.
    pub disturbed: bool,
}

/// What a call does to the stack pointer, and how wide that is.
pub trait Calls {
    /// The bytes of a stack entry.
    fn word(&self) -> i64;
    /// How many bytes a call takes from the stack, if that is known.
    fn cleaned(&self, code: &Code) -> Option<i64>;
}

impl Machine {
    /// What is known on entry to the code that begins at an address, whose
    /// stack has entries of so many bytes.
    pub fn entry(address: u64, word: i64) -> Self {
        let version = Version::Entry(address);
        let mut registers = [Register {
            value: Value::Unknown,
            version,
        }; REGISTERS];
        registers[RSP].value = Value::Stack(version, 0);
        Self {
            visit: 1,
            is_long: word == 8,
            registers,
            memory: Memory::default(),
            control: Word::ENTRY,
            changed: None,
            flags: [Writer::Entry; FLAGS],
            status: Writer::Entry,
            disturbed: false,
        }
    }

    /// What is known on coming to a line from where the text does not tell.
    pub fn arrival(address: u64, word: i64) -> Self {
        let mut machine = Self::entry(address, word);
        for register in &mut machine.registers {
            register.version = Version::At(address);
        }
        machine.registers[RSP].value = Value::Stack(Version::At(address), 0);
        machine.flags = [Writer::Several; FLAGS];
        machine.status = Writer::Several;
        machine
    }

    /// Whether an address on the stack was handed out.
    pub fn hands_out(&self) -> bool {
        self.memory.is_handed_out()
    }

    /// The stack pointer.
    pub fn pointer(&self) -> Value {
        self.registers[RSP].value
    }

    /// What is known on coming to an address, this way or another.
    pub fn meet(&mut self, other: &Self, address: u64) {
        let here = Version::At(address);
        for (number, (mine, other)) in self.registers.iter_mut().zip(&other.registers).enumerate() {
            if mine != other {
                mine.version = here;
                mine.value = match (mine.value, other.value) {
                    (Value::Word(a), Value::Word(b)) => Value::Word(a.meet(b)),
                    (a, b) if a == b => a,
                    _ if number == RSP => Value::Stack(here, 0),
                    _ => Value::Unknown,
                };
            }
        }
        self.memory.meet(&other.memory);
        if self.control != other.control {
            self.control = self.control.meet(other.control);
            self.changed = Some(Change::Meeting(address));
        }
        for (mine, other) in self.flags.iter_mut().zip(&other.flags) {
            *mine = met(*mine, *other);
        }
        self.status = met(self.status, other.status);
        self.disturbed |= other.disturbed;
    }

    /// The place of a memory operand, as it is now.
    pub fn place(&self, text: &str, code: &Code) -> Option<Place> {
        let (address, symbol) = sum(text, code)?;
        let mut place = Place {
            stack: None,
            symbol,
            terms: Vec::new(),
            offset: address.offset,
        };
        for (name, scale) in address.registers {
            let (number, _) = register(&name)?;
            let Register { value, version } = self.registers[number];
            let whole = self.is_whole(&name) && scale == 1;
            match value {
                Value::Stack(base, offset) if whole && place.stack.is_none() => {
                    place.stack = Some(base);
                    place.offset = place.offset.wrapping_add(offset);
                }
                _ => place.terms.push(Term {
                    name,
                    version,
                    scale,
                }),
            }
        }
        Some(place)
    }

    /// Whether a name is all of a register.
    fn is_whole(&self, name: &str) -> bool {
        let whole = matches!(register(name), Some((_, Part::Whole)));
        whole && !(self.is_long && is_half(name))
    }

    /// The memory operands of an instruction, and their bytes.
    pub fn places(&self, code: &Code) -> Vec<(Place, i64)> {
        let texts = code.operands.iter().filter_map(|text| memory(text));
        let place = |text: String| Some((self.place(&text, code)?, bytes(&text)));
        texts.filter_map(place).collect()
    }

    /// The memory that an instruction which passes writes, as far as its
    /// place is known.
    pub fn written(&self, code: &Code, calls: &dyn Calls) -> Vec<(Place, i64)> {
        if code.name == "push" {
            let bytes = entry_bytes(code, calls);
            let below = |top: Place| Place {
                offset: top.offset.wrapping_sub(bytes),
                ..top
            };
            return self
                .top()
                .map(below)
                .map(|top| (top, bytes))
                .into_iter()
                .collect();
        }
        if effects::writes_anywhere(code) {
            return self.string_store().into_iter().collect();
        }
        let numbers = if effects::is_x87(&code.name) {
            vec![0; usize::from(effects::stores(code))]
        } else {
            effects::operands(code)
        };
        let texts = numbers
            .into_iter()
            .filter_map(|number| code.operands.get(number));
        let texts = texts.filter_map(|text| memory(text));
        let place = |text: String| Some((self.place(&text, code)?, bytes(&text)));
        texts.filter_map(place).collect()
    }

    /// Where a string instruction stores, from the place that `rdi` has on
    /// the stack on.
    fn string_store(&self) -> Option<(Place, i64)> {
        match self.registers[RDI].value {
            Value::Stack(base, offset) => {
                let place = Place {
                    stack: Some(base),
                    symbol: None,
                    terms: Vec::new(),
                    offset,
                };
                Some((place, i64::MAX))
            }
            _ => None,
        }
    }

    /// What is known behind an instruction.
    pub fn step(&mut self, code: &Code, calls: &dyn Calls) {
        let at = code.address;
        let writer = if effects::may_leave_flags(code) {
            Writer::Several
        } else {
            Writer::At(at)
        };
        for (written, flag) in effects::flags(code).into_iter().zip(&mut self.flags) {
            if written {
                *flag = writer;
            }
        }
        if effects::writes_status(code) {
            self.status = Writer::At(at);
            self.disturbed = false;
        } else {
            self.disturbed |= effects::disturbs_status(code);
        }
        if let Some(word) = changed(code) {
            self.load_control(word, at);
        }
        match code.name.as_str() {
            "push" => self.push(code, entry_bytes(code, calls)),
            "pop" => self.pop(code, entry_bytes(code, calls)),
            "call" => self.call(code, calls),
            "leave" => self.leave(at, calls.word()),
            "mov" | "movzx" | "lea" => self.moves(code),
            "add" | "sub" | "or" | "and" | "xor" => self.computes(code),
            name if effects::is_x87(name) => self.x87(code),
            name if passes(name, &code.operands) || effects::keeps_control(code) => {
                self.writes(code);
            }
            _ if code.is_return() || code.name.starts_with('j') => {}
            _ => self.anything(code),
        }
    }

    fn load_control(&mut self, word: Word, at: u64) {
        self.control = word;
        self.changed = Some(Change::At(at));
    }

    fn push(&mut self, code: &Code, bytes: i64) {
        let value = self.operand(code, 0);
        self.push_value(value, bytes, code.address);
    }

    fn push_value(&mut self, value: Value, bytes: i64, at: u64) {
        if value.is_on_stack() {
            self.memory.hand_out();
        }
        self.move_pointer(-bytes, at);
        let top = self.top();
        self.memory.write(top, bytes, value, at);
    }

    /// An address that is counted from the stack pointer is that behind
    /// the pop.
    fn pop(&mut self, code: &Code, bytes: i64) {
        let operand = code.operands.first().map(|text| text.to_ascii_lowercase());
        match operand.and_then(|text| register(&text)) {
            Some((number, Part::Whole)) => self.take(number, code.address, bytes),
            _ => {
                self.move_pointer(bytes, code.address);
                self.writes(code);
            }
        }
    }

    fn leave(&mut self, at: u64, bytes: i64) {
        let frame = self.registers[RBP].value;
        if frame.is_on_stack() {
            self.registers[RSP].value = frame;
            return self.take(RBP, at, bytes);
        }
        self.set(RSP, Value::Unknown, at);
        self.set(RBP, Value::Unknown, at);
    }

    /// Take the top of the stack into a register.
    fn take(&mut self, number: usize, at: u64, bytes: i64) {
        let value = self
            .top()
            .map_or(Value::Unknown, |top| self.memory.read(&top, bytes));
        self.move_pointer(bytes, at);
        self.set(number, value, at);
    }

    /// The place that the stack pointer points to.
    fn top(&self) -> Option<Place> {
        match self.pointer() {
            Value::Stack(base, offset) => Some(Place {
                stack: Some(base),
                symbol: None,
                terms: Vec::new(),
                offset,
            }),
            _ => None,
        }
    }

    fn move_pointer(&mut self, bytes: i64, at: u64) {
        if let Value::Stack(base, offset) = self.pointer() {
            self.registers[RSP].value = Value::Stack(base, offset.wrapping_add(bytes));
        }
        self.settle(at);
    }

    /// A stack pointer that is not known is one of its own.
    fn settle(&mut self, at: u64) {
        let pointer = &mut self.registers[RSP];
        if !pointer.value.is_on_stack() {
            pointer.value = Value::Stack(Version::Behind(at, self.visit), 0);
        }
    }

    /// A call keeps what the calling convention says is kept: registers
    /// but those that it may lose, its caller's places of the stack and
    /// the control word.
    fn call(&mut self, code: &Code, calls: &dyn Calls) {
        let at = code.address;
        if code.is_call_to_next() {
            // It is no call: it pushes its own address, for a `pop`.
            return self.push_value(Value::Unknown, calls.word(), at);
        }
        let lost: &[usize] = if calls.word() == 8 {
            &LOST_64
        } else {
            &LOST_32
        };
        for &number in lost {
            self.set(number, Value::Unknown, at);
        }
        self.memory.call(self.pointer(), at);
        match calls.cleaned(code) {
            Some(bytes) => self.move_pointer(bytes, at),
            None => {
                self.registers[RSP].value = Value::Unknown;
                self.settle(at);
            }
        }
    }

    fn x87(&mut self, code: &Code) {
        let operand = code.operands.first().map(|text| text.to_ascii_lowercase());
        if operand
            .as_deref()
            .is_some_and(|text| register(text).is_some())
        {
            // `fnstsw ax` writes the one register that x87 code does.
            return self.set(RAX, Value::Unknown, code.address);
        }
        let text = operand.as_deref().and_then(memory);
        let place = text.as_ref().and_then(|text| self.place(text, code));
        if code.name == "fldcw" {
            let value = place.map_or(Value::Unknown, |place| self.memory.read(&place, 2));
            self.load_control(value.word(), code.address);
        } else if effects::stores(code) && operand.is_some_and(|text| !text.starts_with("st")) {
            let value = match code.name.as_str() {
                "fnstcw" | "fstcw" => Value::Word(self.control),
                _ => Value::Unknown,
            };
            let bytes = text.map_or(0, |text| bytes(&text));
            self.memory.write(place, bytes, value, code.address);
        }
    }

    /// `mov`, `movzx` and `lea`.
    fn moves(&mut self, code: &Code) {
        let value = match (code.name.as_str(), code.operands.get(1)) {
            ("lea", Some(text)) => self.effective(text, code),
            ("movzx", _) => self.operand(code, 1).half(),
            _ => self.operand(code, 1),
        };
        let to_frame = matches!(
            code.operands.first().and_then(|t| register(t)),
            Some((RBP | RSP, _))
        );
        if value.is_on_stack() && !to_frame {
            self.memory.hand_out();
        }
        self.put(code, 0, value);
    }

    /// The address that `lea` gives; one with an index on the stack is
    /// handed out.
    fn effective(&mut self, text: &str, code: &Code) -> Value {
        let text = memory(text).map(|text| without_zero(&text));
        let place = text.and_then(|text| self.place(&text, code));
        match place {
            Some(place) if place.is_on_stack() => {
                let base = place.stack.expect("it is on the stack");
                Value::Stack(base, place.offset)
            }
            Some(place) if place.stack.is_some() => {
                self.memory.hand_out();
                Value::Unknown
            }
            _ => Value::Unknown,
        }
    }

    /// An address on the stack that goes into what is computed is handed
    /// out.
    fn hand_out_sources(&mut self, code: &Code) {
        let sources = code.operands.iter().skip(usize::from(code.name != "xchg"));
        let on_stack = |text: &String| {
            let register = register(&text.to_ascii_lowercase());
            register.is_some_and(|(number, _)| self.registers[number].value.is_on_stack())
        };
        if sources.into_iter().any(on_stack) {
            self.memory.hand_out();
        }
    }

    /// `add`, `sub`, `or`, `and` and `xor`.
    fn computes(&mut self, code: &Code) {
        self.hand_out_sources(code);
        let same = code.operands.first() == code.operands.get(1);
        if code.name == "xor" && same {
            return self.put(code, 0, Value::Word(Word::constant(0)));
        }
        let constant = code.operands.get(1).and_then(|text| immediate(text));
        let Some(constant) = constant.filter(|_| !code.is_constant_relocated()) else {
            return self.put(code, 0, Value::Unknown);
        };
        let signed = constant.cast_signed();
        let shift = self.byte(code);
        let bits = u16::try_from(constant & 0xffff).expect("16 bits");
        let (bits, mask) = match shift {
            Some(shift) => ((bits & 0xff) << shift, 0xff << shift),
            None => (bits, u16::MAX),
        };
        let old = self.whole(code);
        let word = old.word();
        let all = code.operands.first().is_some_and(|text| {
            let lower = text.to_ascii_lowercase();
            self.is_whole(&lower)
        });
        let value = match (code.name.as_str(), old) {
            ("add", Value::Stack(base, offset)) if all => {
                Value::Stack(base, offset.wrapping_add(low(signed)))
            }
            ("sub", Value::Stack(base, offset)) if all => {
                Value::Stack(base, offset.wrapping_sub(low(signed)))
            }
            ("or", _) => Value::Word(word.or(bits)),
            ("and", _) => Value::Word(word.and(bits | !mask)),
            ("xor", _) => Value::Word(word.xor(bits)),
            _ => Value::Unknown,
        };
        self.put_whole(code, value);
    }

    /// Where in a word the byte lies that the first operand is.
    fn byte(&self, code: &Code) -> Option<u32> {
        let text = code.operands.first()?;
        match register(&text.to_ascii_lowercase()) {
            Some((_, Part::Low)) => return Some(0),
            Some((_, Part::High)) => return Some(8),
            Some(_) => return None,
            None => {}
        }
        if width(text) != 8 {
            return None;
        }
        let (_, within) = self.holding(code)?;
        Some(8 * within)
    }

    /// The stored word that holds the byte which the first operand is, and
    /// whether it is the lower or the upper one.
    fn holding(&self, code: &Code) -> Option<(Place, u32)> {
        let text = memory(code.operands.first()?)?;
        self.memory.holding(&self.place(&text, code)?)
    }

    /// The value of all that the first operand is a part of.
    fn whole(&self, code: &Code) -> Value {
        let Some(text) = code.operands.first() else {
            return Value::Unknown;
        };
        match register(&text.to_ascii_lowercase()) {
            Some((number, _)) => self.registers[number].value,
            None if width(text) == 8 => {
                let held = self.holding(code);
                held.map_or(Value::Unknown, |(place, _)| self.memory.read(&place, 2))
            }
            None => self.operand(code, 0),
        }
    }

    /// Change all that the first operand is a part of.
    fn put_whole(&mut self, code: &Code, value: Value) {
        let text = &code.operands[0];
        if let Some((number, _)) = register(&text.to_ascii_lowercase()) {
            return self.set(number, value, code.address);
        }
        match self.holding(code) {
            Some((place, _)) if width(text) == 8 => {
                self.memory.change(&place, value, code.address);
            }
            _ => self.put(code, 0, value),
        }
    }

    /// The value of an operand.
    fn operand(&self, code: &Code, number: usize) -> Value {
        let Some(text) = code.operands.get(number) else {
            return Value::Unknown;
        };
        let lower = text.to_ascii_lowercase();
        match register(&lower) {
            Some((number, _)) if self.is_whole(&lower) => return self.registers[number].value,
            Some((number, Part::Whole | Part::Word)) => {
                return self.registers[number].value.half();
            }
            Some(_) => return Value::Unknown,
            None => {}
        }
        if let Some(constant) = immediate(&lower).filter(|_| !code.is_constant_relocated()) {
            let bits = u16::try_from(constant & 0xffff).expect("16 bits");
            return Value::Word(Word::constant(bits));
        }
        let Some(text) = memory(text) else {
            return Value::Unknown;
        };
        let place = self.place(&text, code);
        place.map_or(Value::Unknown, |place| {
            self.memory.read(&place, bytes(&text))
        })
    }

    /// Write an operand.
    fn put(&mut self, code: &Code, number: usize, value: Value) {
        let Some(text) = code.operands.get(number) else {
            return;
        };
        let at = code.address;
        let lower = text.to_ascii_lowercase();
        match register(&lower) {
            Some((register, _)) if self.is_whole(&lower) => return self.set(register, value, at),
            Some((register, Part::Whole)) => return self.set(register, value.half(), at),
            Some((register, part)) => return self.set_part(register, part, value, at),
            None => {}
        }
        if let Some(text) = memory(text) {
            let place = self.place(&text, code);
            self.memory.write(place, bytes(&text), value, at);
        } else if in_segment(text) {
            self.memory.write(None, 0, value, at);
        }
    }

    fn set(&mut self, number: usize, value: Value, at: u64) {
        self.registers[number] = Register {
            value,
            version: Version::Behind(at, self.visit),
        };
        self.settle(at);
    }

    /// Write a part of a register, which is 16 bits or 8 of them.
    fn set_part(&mut self, number: usize, part: Part, value: Value, at: u64) {
        let (mask, shift) = match part {
            Part::Low => (0xff, 0),
            Part::High => (0xff00, 8),
            _ => (u16::MAX, 0),
        };
        let old = self.registers[number].value.word();
        let whole = match value {
            Value::Word(word) if mask == u16::MAX => Value::Word(word),
            Value::Word(word) => match word.is_constant() {
                Some(bits) => Value::Word(old.with(mask, bits << shift)),
                None => Value::Unknown,
            },
            _ => Value::Unknown,
        };
        self.set(number, whole, at);
    }

    /// An instruction of which no more is known than what it writes.
    fn writes(&mut self, code: &Code) {
        if !effects::operands(code).is_empty() {
            self.hand_out_sources(code);
        }
        for number in effects::operands(code) {
            self.put(code, number, Value::Unknown);
        }
        if effects::writes_counted_bit(code) {
            self.write_bit(code);
        }
        for number in effects::registers(code) {
            self.set(number, Value::Unknown, code.address);
        }
        if effects::writes_anywhere(code) {
            self.memory.write(None, 0, Value::Unknown, code.address);
        }
    }

    /// A bit that a register counts is at a place with an index.
    fn write_bit(&mut self, code: &Code) {
        let Some(text) = code.operands.first().and_then(|text| memory(text)) else {
            return;
        };
        let mut place = self.place(&text, code);
        if let Some(place) = &mut place {
            place.terms.push(Term {
                name: code.operands[1].clone(),
                version: Version::Behind(code.address, self.visit),
                scale: 1,
            });
        }
        self.memory
            .write(place, bytes(&text), Value::Unknown, code.address);
    }

    /// An instruction of which nothing is known.
    fn anything(&mut self, code: &Code) {
        for number in 0..REGISTERS {
            self.set(number, Value::Unknown, code.address);
        }
        self.memory.forget();
        self.flags = [Writer::At(code.address); FLAGS];
        self.status = Writer::At(code.address);
        self.disturbed = false;
        self.load_control(Word::UNKNOWN, code.address);
    }
}

fn met(mine: Writer, other: Writer) -> Writer {
    if mine == other { mine } else { Writer::Several }
}

/// The text of an address without the register that is always zero.
fn without_zero(text: &str) -> String {
    let mut text: String = text.split_whitespace().collect();
    for zero in ["+eiz*1", "+1*eiz", "+eiz", "+riz*1", "+1*riz", "+riz"] {
        text = text.replace(zero, "");
    }
    text
}

/// The bytes that a push or a pop moves the stack pointer by.
fn entry_bytes(code: &Code, calls: &dyn Calls) -> i64 {
    let operand = code.operands.first().map(|text| text.to_ascii_lowercase());
    let short = operand
        .is_some_and(|text| width(&text) == 16 || matches!(register(&text), Some((_, Part::Word))));
    if short { 2 } else { calls.word() }
}

/// The bytes of a memory operand; where its size does not stand there, as
/// many as `fxsave` writes.
fn bytes(text: &str) -> i64 {
    match width(text) {
        0 => 512,
        bits => i64::from(bits) / 8,
    }
}

/// A constant of 32 bits with its sign.
fn low(constant: i64) -> i64 {
    match u32::try_from(constant) {
        Ok(word) => i64::from(word.cast_signed()),
        Err(_) => constant,
    }
}
