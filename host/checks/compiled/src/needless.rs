//! What an instruction is said to write although it does not: no belief
//! that is wrong, but one that is needlessly given up.

use notes::{Notes, Record};

use crate::belief::{FLAGS, number};
use crate::beside::Beside;
use crate::place::register;
use crate::probed::REGISTERS;

/// What is said of an instruction between two probes, and what it changed.
#[derive(Debug, Clone)]
pub struct Needless {
    address: u32,
    /// Flags and registers that it is said to write.
    told: Vec<&'static str>,
    changed: Vec<&'static str>,
}

impl Needless {
    /// What the notes say of the instruction at an address.
    #[must_use]
    pub fn told(notes: &Notes, address: u32) -> Self {
        let records: Vec<(u64, &Record)> = notes.records().collect();
        let flags = FLAGS.map(|(name, _)| name).into_iter();
        let registers = REGISTERS.into_iter();
        let told = flags
            .filter(|name| writes_flag(&records, name, address))
            .chain(registers.filter(|name| writes_register(&records, name)));
        Self {
            address,
            told: told.collect(),
            changed: Vec::new(),
        }
    }

    /// What the instruction changes in a run.
    pub fn run(&mut self, beside: Beside) {
        let mut visits = beside.visits_of(self.address, beside.visits.len() - 1);
        let Some(at) = visits.next() else { return };
        let (before, behind) = (beside.before(at), beside.behind(at));
        let flags = FLAGS
            .iter()
            .filter(|(_, bit)| (before.flags ^ behind.flags) >> bit & 1 == 1);
        self.changed.extend(flags.map(|(name, _)| *name));
        let differs = |name: &&str| {
            let number = register(name).expect("it is one");
            before.general[number] != behind.general[number]
        };
        let registers = REGISTERS.into_iter();
        self.changed.extend(registers.filter(differs));
    }

    /// What no run changed.
    pub fn names(&self) -> impl Iterator<Item = &'static str> {
        let told = self.told.iter().copied();
        told.filter(|name| !self.changed.contains(name))
    }
}

/// Whether the last reader of a flag is told that this one wrote it.
fn writes_flag(records: &[(u64, &Record)], flag: &str, address: u32) -> bool {
    let mut reads = records.iter().flat_map(|(_, record)| &record.reads);
    let last = reads.rfind(|(name, _)| name == flag);
    last.is_some_and(|(_, words)| words.contains(&format!(" at {address:x} ")))
}

/// Whether a register's two probes are told to be of two places.
fn writes_register(records: &[(u64, &Record)], name: &str) -> bool {
    let text = format!("fld DWORD PTR [{name}]");
    let probes = records.iter().filter(|(_, record)| record.text == text);
    let numbers: Vec<Option<u32>> = probes.map(|(_, record)| number(&record.bytes)).collect();
    numbers.first() != numbers.last()
}
