//! A run beside a text: the machine at the visits of a way.

use crate::code::{Code, Instruction};
use crate::place;
use crate::run::{Part, Run, Step};

/// A run with what is needed to read a text beside it. A visit is known by
/// its place among the visits.
#[derive(Debug, Clone, Copy)]
pub struct Beside<'a> {
    pub run: &'a Run,
    /// Memory that is only read.
    pub parts: &'a [Part],
    pub code: &'a Code,
    /// The steps that are in the function, in their order.
    pub visits: &'a [usize],
}

impl<'a> Beside<'a> {
    /// The state before a visit.
    #[must_use]
    pub fn before(&self, at: usize) -> &'a Step {
        &self.run.steps[self.visits[at]]
    }

    /// The state behind a visit: behind a call, that of its return.
    #[must_use]
    pub fn behind(&self, at: usize) -> &'a Step {
        &self.run.steps[self.step_behind(at)]
    }

    fn step_behind(&self, at: usize) -> usize {
        let next = self.visits.get(at + 1).copied();
        next.unwrap_or(self.visits[at] + 1)
    }

    /// The state where the way ends.
    #[must_use]
    pub fn last(&self) -> &'a Step {
        self.behind(self.visits.len() - 1)
    }

    /// The first visit of an address, from a visit on.
    #[must_use]
    pub fn next(&self, from: usize, address: u32) -> Option<usize> {
        (from..self.visits.len()).find(|&at| self.before(at).ip == address)
    }

    /// The visits of an address, up to a visit.
    pub fn visits_of(&self, address: u32, at: usize) -> impl DoubleEndedIterator<Item = usize> {
        (0..=at).filter(move |&at| self.before(at).ip == address)
    }

    /// The state behind the last visit of an address, up to a visit.
    #[must_use]
    pub fn behind_last(&self, address: u32, at: usize) -> Option<&'a Step> {
        let last = self.visits_of(address, at).next_back();
        last.map(|last| self.behind(last))
    }

    /// Words of the arena that a visit changed, and their new values.
    pub fn changes(&self, at: usize) -> impl Iterator<Item = (u32, u32)> {
        let steps = &self.run.steps[self.visits[at] + 1..=self.step_behind(at)];
        steps.iter().flat_map(|step| step.changes.iter().copied())
    }

    /// The instruction of a visit.
    #[must_use]
    pub fn instruction(&self, at: usize) -> Option<&'a Instruction> {
        self.code.at(self.before(at).ip)
    }

    /// Memory before a visit.
    #[must_use]
    pub fn memory_before(&self, at: usize, address: u32, bits: u32) -> Option<u128> {
        self.run.memory(self.parts, self.visits[at], address, bits)
    }

    /// Memory behind a visit.
    #[must_use]
    pub fn memory_behind(&self, at: usize, address: u32, bits: u32) -> Option<u128> {
        self.run
            .memory(self.parts, self.step_behind(at), address, bits)
    }

    /// The address and the bits of the memory operand of a visit.
    #[must_use]
    pub fn operand(&self, at: usize) -> Option<(u32, u32)> {
        let general = |name: &str| Some(self.before(at).general[place::register(name)?]);
        let (bits, sum) = self.instruction(at)?.memory()?;
        Some((place::address(sum, general)?, bits))
    }

    /// The address of a place as the text writes it.
    #[must_use]
    pub fn place(&self, at: usize, sum: &str) -> Option<u32> {
        place::address(sum, |register| self.register(at, register))
    }

    /// The same in a text that does not tell turns apart: a register is as
    /// the instruction left it the last time.
    #[must_use]
    pub fn place_of_turn(&self, at: usize, sum: &str) -> Option<u32> {
        place::address(sum, |name| match name.split_once('@') {
            Some((name, writer)) if !writer.starts_with('@') => {
                let writer = u32::from_str_radix(writer, 16).ok()?;
                let behind = self.behind_last(writer, at.checked_sub(1)?)?;
                Some(behind.general[place::register(name)?])
            }
            _ => self.register(at, name),
        })
    }

    /// A register as the text names it: `esp0`, `eax`, as an instruction
    /// left it, `eax@2a`, as it left it the third time, `eax@2a#3`, or as
    /// it was on coming there, `eax@@2a`.
    fn register(&self, at: usize, name: &str) -> Option<u32> {
        if name == "esp0" {
            return Some(self.run.esp0());
        }
        let Some((name, writer)) = name.split_once('@') else {
            return Some(self.before(at).general[place::register(name)?]);
        };
        if let Some(address) = writer.strip_prefix('@') {
            let address = u32::from_str_radix(address, 16).ok()?;
            let visit = self.visits_of(address, at).next_back()?;
            return Some(self.before(visit).general[place::register(name)?]);
        }
        let (address, time) = writer.split_once('#').unwrap_or((writer, "1"));
        let address = u32::from_str_radix(address, 16).ok()?;
        let earlier = time.parse::<usize>().ok()?.checked_sub(1)?;
        let visit = self.visits_of(address, at).nth(earlier)?;
        Some(self.behind(visit).general[place::register(name)?])
    }
}
