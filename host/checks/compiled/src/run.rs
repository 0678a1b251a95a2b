//! A run of a function, as the harness tells it.

use crate::extended::Extended;

/// Bytes of the memory that a run may write, and where in them the
/// arguments begin; the return address stands below them.
pub const ARENA: usize = 1024;
pub const ARGUMENTS: usize = 896;

/// Bytes of a step, without its changes.
pub const STEP: usize = 132;

/// Memory from an address on.
#[derive(Debug, Clone, PartialEq, Eq)]
pub struct Part {
    pub address: u32,
    pub bytes: Vec<u8>,
}

impl Part {
    /// So many bytes from an address on, if all are here.
    fn bytes(&self, address: u32, size: usize) -> Option<&[u8]> {
        let from = usize::try_from(address.checked_sub(self.address)?).ok()?;
        self.bytes.get(from..from.checked_add(size)?)
    }
}

/// The state before an instruction.
#[derive(Debug, Clone, PartialEq, Eq)]
pub struct Step {
    pub ip: u32,
    pub flags: u32,
    /// In the order of the processor's numbers: ax, cx, dx, bx, sp, bp,
    /// si, di.
    pub general: [u32; 8],
    /// The x87 control word and status word.
    pub control: u16,
    pub status: u16,
    tags: u16,
    registers: [[u8; 10]; 8],
    /// Words of memory that changed since the step before: address and
    /// new value.
    pub changes: Vec<(u32, u32)>,
}

impl Step {
    /// The register of a place of the x87 stack, if it is not empty.
    #[must_use]
    pub fn st(&self, place: usize) -> Option<Extended> {
        let register = (place + usize::from(self.status >> 11)) & 7;
        let empty = self.tags >> (2 * register) & 3 == 3;
        (!empty).then_some(Extended(self.registers[register]))
    }

    /// Whether all of the x87 unit is as it is at another step.
    #[must_use]
    pub fn has_x87_of(&self, other: &Self) -> bool {
        let words = |step: &Self| (step.control, step.status, step.tags);
        words(self) == words(other) && self.registers == other.registers
    }
}

/// What the machine did with a function.
#[derive(Debug, Clone, PartialEq, Eq)]
pub struct Run {
    /// The arena before the run.
    pub arena: Part,
    /// The state before each instruction, and that behind the return.
    pub steps: Vec<Step>,
}

impl Run {
    /// The run that some bytes tell.
    #[must_use]
    pub fn read(arena: Part, mut bytes: &[u8]) -> Option<Self> {
        let mut steps = Vec::new();
        while !bytes.is_empty() {
            steps.push(step(&mut bytes)?);
        }
        (steps.len() > 1).then_some(Self { arena, steps })
    }

    /// The stack pointer at the function's entry.
    #[must_use]
    pub fn esp0(&self) -> u32 {
        self.steps[0].general[4]
    }

    /// Bytes of memory as they are before the instruction of a step, the
    /// lowest one first in a number.
    #[must_use]
    pub fn memory(&self, parts: &[Part], at: usize, address: u32, bits: u32) -> Option<u128> {
        let size = usize::try_from(bits / 8).ok()?;
        if let Some(bytes) = parts.iter().find_map(|part| part.bytes(address, size)) {
            return Some(number(bytes));
        }
        let mut bytes = self.arena.bytes(address, size)?.to_vec();
        for &(changed, word) in self.steps[..=at].iter().flat_map(|step| &step.changes) {
            overlay(&mut bytes, address, changed, word);
        }
        Some(number(&bytes))
    }
}

/// Put the bytes of a word over those that stand at the same addresses.
fn overlay(bytes: &mut [u8], address: u32, changed: u32, word: u32) {
    for (at, byte) in (changed..).zip(word.to_le_bytes()) {
        let place = at.checked_sub(address).map(|place| place as usize);
        if let Some(old) = place.and_then(|place| bytes.get_mut(place)) {
            *old = byte;
        }
    }
}

fn number(bytes: &[u8]) -> u128 {
    let mut all = [0; 16];
    all[..bytes.len()].copy_from_slice(bytes);
    u128::from_le_bytes(all)
}

/// So many bytes from the front.
pub fn take<const N: usize>(bytes: &mut &[u8]) -> Option<[u8; N]> {
    let (first, rest) = bytes.split_first_chunk()?;
    *bytes = rest;
    Some(*first)
}

/// A word from the front.
pub fn word(bytes: &mut &[u8]) -> Option<u32> {
    take(bytes).map(u32::from_le_bytes)
}

fn half(bytes: &mut &[u8]) -> Option<u16> {
    take(bytes).map(u16::from_le_bytes)
}

fn step(bytes: &mut &[u8]) -> Option<Step> {
    let (ip, flags, general) = (word(bytes)?, word(bytes)?, words(bytes)?);
    let [control, status, tags, _] = [half(bytes)?, half(bytes)?, half(bytes)?, half(bytes)?];
    let registers = registers(bytes)?;
    let mut changes = Vec::new();
    for _ in 0..word(bytes)? {
        changes.push((word(bytes)?, word(bytes)?));
    }
    Some(Step {
        ip,
        flags,
        general,
        control,
        status,
        tags,
        registers,
        changes,
    })
}

fn words(bytes: &mut &[u8]) -> Option<[u32; 8]> {
    let mut words = [0; 8];
    for place in &mut words {
        *place = word(bytes)?;
    }
    Some(words)
}

fn registers(bytes: &mut &[u8]) -> Option<[[u8; 10]; 8]> {
    let mut registers = [[0; 10]; 8];
    for register in &mut registers {
        *register = take(bytes)?;
    }
    Some(registers)
}
