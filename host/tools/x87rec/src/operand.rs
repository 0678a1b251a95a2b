//! Operands, and the numbers of addresses and slots.

use std::collections::{BTreeMap, BTreeSet};

use sleetgate::{Instruction, MOST_OPERANDS, Operand, Place as Numbers, TEXT};

use crate::Wrong;
use crate::address::{address, in_segment, is_slot, memory, width};
use crate::line::Code;
use crate::machine::Machine;
use crate::names::is_register;
use crate::place::{Place, Version};

/// The places so far; a number is a position, from 1 on.
#[derive(Debug, Default)]
pub struct Numbering {
    places: Vec<Place>,
    slots: Vec<Place>,
}

impl Numbering {
    /// The instruction of a line, where this is known of the machine.
    pub fn instruction(&mut self, code: &Code, machine: &Machine) -> Result<Instruction, Wrong> {
        let wrong = |why| Wrong {
            line: code.line,
            why,
        };
        let operands = if code.operands.len() > MOST_OPERANDS {
            vec![Operand::Other]
        } else {
            let texts = code.operands.iter();
            let read = texts.map(|text| self.operand(text, code, machine));
            read.collect::<Result<Vec<_>, _>>().map_err(wrong)?
        };
        Ok(Instruction::new(code.address, &code.name, operands))
    }

    fn operand(&mut self, text: &str, code: &Code, machine: &Machine) -> Result<Operand, String> {
        let lower = text.to_ascii_lowercase();
        if let Some(place) = stack_place(&lower) {
            return Ok(Operand::register(place));
        }
        if is_register(&lower) || lower.starts_with("st(") {
            if lower.len() > TEXT || !lower.is_ascii() {
                return Err(format!("`{text}` is no register"));
            }
            return Ok(Operand::register(lower));
        }
        if let Some(memory) = memory(text) {
            return Ok(self.memory(&memory, code, machine));
        }
        if in_segment(text) {
            return Ok(Operand::memory(width(text), Numbers::Unknown));
        }
        Ok(Operand::Other)
    }

    fn memory(&mut self, text: &str, code: &Code, machine: &Machine) -> Operand {
        let width = width(text);
        let Some(place) = machine.place(text, code) else {
            return Operand::memory(width, Numbers::Unknown);
        };
        let address_number = number(&mut self.places, &place);
        let numbers = if address(text).is_some_and(|sum| is_slot(&sum)) {
            Numbers::Slot {
                address: address_number,
                slot: number(&mut self.slots, &place),
            }
        } else {
            Numbers::Address(address_number)
        };
        Operand::memory(width, numbers)
    }

    /// What the address numbers stand for. Where a register stands there
    /// with two values, each place tells which it is.
    pub fn texts(&self, pointer: &str) -> Vec<String> {
        let mut versions: BTreeMap<&str, BTreeSet<Version>> = BTreeMap::new();
        for term in self.places.iter().flat_map(|place| &place.terms) {
            versions.entry(&term.name).or_default().insert(term.version);
        }
        let told = |name: &str| versions[name].len() > 1;
        let texts = self.places.iter().map(|place| place.text(pointer, told));
        texts.collect()
    }

    /// Whether a place is counted from the stack pointer on entry.
    pub fn names_entry(&self) -> bool {
        let entry = |place: &Place| matches!(place.stack, Some(Version::Entry(_)));
        self.places.iter().any(entry)
    }
}

/// `st` and `st0` to `st7` as r2SMT's disassembler writes them.
fn stack_place(lower: &str) -> Option<String> {
    let number = match lower.strip_prefix("st")? {
        "" => "0",
        digit => digit,
    };
    let is_place = number.len() == 1 && number.bytes().all(|b| b.is_ascii_digit());
    is_place.then(|| format!("st({number})"))
}

/// The position of a place, from 1 on; a new one is added.
fn number(all: &mut Vec<Place>, entry: &Place) -> u32 {
    let at = all.iter().position(|old| old == entry).unwrap_or_else(|| {
        all.push(entry.clone());
        all.len() - 1
    });
    u32::try_from(at + 1).unwrap_or(u32::MAX)
}
