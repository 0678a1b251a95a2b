//! Recorded runs in files.
//!
//! A file holds the arena's address, the parts of memory that are only
//! read, and the runs: the function's number in its group, the arena and
//! the steps. Each step but the first is written as its difference from
//! the one before, and zeros are packed.

use std::fs;
use std::io;
use std::path::{Path, PathBuf};

use crate::functions::Group;
use crate::run::{ARENA, Part, Run, STEP, take, word};

/// A recorded run: the function's number in its group, the arena before
/// it, and the steps as the harness tells them.
#[derive(Debug, Clone, PartialEq, Eq)]
pub struct Record {
    pub function: u32,
    pub arena: [u8; ARENA],
    pub steps: Vec<u8>,
}

/// The runs of a group at a level.
#[derive(Debug, Clone, PartialEq, Eq)]
pub struct Records {
    /// Where the arena is.
    pub arena: u32,
    /// Memory that is only read.
    pub parts: Vec<Part>,
    pub records: Vec<Record>,
}

/// The file of a group at a level.
#[must_use]
pub fn file(group: &Group, level: &str, end: &str) -> PathBuf {
    let folder = Path::new(env!("CARGO_MANIFEST_DIR")).join("stored");
    folder.join(format!("{}{level}.{end}", group.name))
}

impl Records {
    /// The stored runs of a group at a level.
    ///
    /// # Errors
    /// Where the file is not there, or holds something else.
    pub fn load(group: &Group, level: &str) -> io::Result<Self> {
        let packed = fs::read(file(group, level, "runs"))?;
        let read = unpacked(&packed).and_then(|bytes| Self::read(&mut &bytes[..]));
        read.ok_or_else(|| io::Error::other("no recorded runs"))
    }

    /// The bytes of a file.
    #[must_use]
    pub fn bytes(&self) -> Option<Vec<u8>> {
        let mut bytes = self.arena.to_le_bytes().to_vec();
        put(&mut bytes, self.parts.len())?;
        for part in &self.parts {
            bytes.extend(part.address.to_le_bytes());
            put(&mut bytes, part.bytes.len())?;
            bytes.extend(&part.bytes);
        }
        bytes.extend(
            self.records
                .iter()
                .map(Record::bytes)
                .collect::<Option<Vec<_>>>()?
                .concat(),
        );
        Some(packed(&bytes))
    }

    fn read(bytes: &mut &[u8]) -> Option<Self> {
        let arena = word(bytes)?;
        let parts = (0..word(bytes)?)
            .map(|_| part(bytes))
            .collect::<Option<_>>()?;
        let mut records = Vec::new();
        while !bytes.is_empty() {
            records.push(Record::read(bytes)?);
        }
        Some(Self {
            arena,
            parts,
            records,
        })
    }
}

impl Record {
    /// The run.
    #[must_use]
    pub fn run(&self, address: u32) -> Option<Run> {
        let bytes = self.arena.to_vec();
        Run::read(Part { address, bytes }, &self.steps)
    }

    fn bytes(&self) -> Option<Vec<u8>> {
        let mut bytes = self.function.to_le_bytes().to_vec();
        bytes.extend(self.arena);
        put(&mut bytes, self.steps.len())?;
        bytes.extend(turned(&self.steps, false)?);
        Some(bytes)
    }

    fn read(bytes: &mut &[u8]) -> Option<Self> {
        let (function, arena) = (word(bytes)?, take(bytes)?);
        let steps = turned(&many(bytes)?, true)?;
        Some(Self {
            function,
            arena,
            steps,
        })
    }
}

fn part(bytes: &mut &[u8]) -> Option<Part> {
    let address = word(bytes)?;
    let bytes = many(bytes)?;
    Some(Part { address, bytes })
}

/// A length.
fn put(bytes: &mut Vec<u8>, length: usize) -> Option<()> {
    bytes.extend(u32::try_from(length).ok()?.to_le_bytes());
    Some(())
}

/// A length and so many bytes.
fn many(bytes: &mut &[u8]) -> Option<Vec<u8>> {
    let length = usize::try_from(word(bytes)?).ok()?;
    let (many, rest) = bytes.split_at_checked(length)?;
    *bytes = rest;
    Some(many.to_vec())
}

/// Steps as their differences, or differences as the steps.
fn turned(mut steps: &[u8], back: bool) -> Option<Vec<u8>> {
    let (mut before, mut turned) = ([0; STEP], Vec::new());
    while !steps.is_empty() {
        let given: [u8; STEP] = take(&mut steps)?;
        let other: [u8; STEP] = std::array::from_fn(|at| given[at] ^ before[at]);
        before = if back { other } else { given };
        let changes = usize::try_from(word(&mut &before[STEP - 4..])?).ok()?;
        let (changes, rest) = steps.split_at_checked(8 * changes)?;
        turned.extend_from_slice(&other);
        turned.extend_from_slice(changes);
        steps = rest;
    }
    Some(turned)
}

/// Each piece is a number of zeros, a number of other bytes, and these.
fn packed(mut bytes: &[u8]) -> Vec<u8> {
    let mut packed = Vec::new();
    while !bytes.is_empty() {
        let zeros = bytes
            .iter()
            .take(255)
            .take_while(|byte| **byte == 0)
            .count();
        let rest = &bytes[zeros..];
        let pause = rest.windows(3).position(|three| three == [0; 3]);
        let others = pause.unwrap_or(rest.len()).min(255);
        packed.extend([zeros, others].map(|count| u8::try_from(count).unwrap_or(u8::MAX)));
        packed.extend(&rest[..others]);
        bytes = &rest[others..];
    }
    packed
}

fn unpacked(mut packed: &[u8]) -> Option<Vec<u8>> {
    let mut bytes = Vec::new();
    while !packed.is_empty() {
        let [zeros, others] = take(&mut packed)?;
        let (piece, rest) = packed.split_at_checked(others.into())?;
        bytes.extend(vec![0; zeros.into()]);
        bytes.extend(piece);
        packed = rest;
    }
    Some(bytes)
}

#[cfg(test)]
mod tests {
    use super::{Record, Records};
    use crate::run::{ARENA, Part, STEP};

    #[test]
    fn what_is_written_is_read_again() {
        let mut steps = vec![7; STEP];
        steps[STEP - 4..].copy_from_slice(&1_u32.to_le_bytes());
        steps.extend([1, 2, 3, 4, 0, 0, 0, 8]);
        steps.extend([0; STEP]);
        let mut arena = [0; ARENA];
        arena[300] = 1;
        let record = Record {
            function: 3,
            arena,
            steps,
        };
        let records = Records {
            arena: 0x0809_a420,
            parts: vec![Part {
                address: 9,
                bytes: vec![5; 300],
            }],
            records: vec![record.clone(), record],
        };
        let bytes = records.bytes().expect("short");
        let again = super::unpacked(&bytes).and_then(|bytes| Records::read(&mut &bytes[..]));
        assert_eq!(again, Some(records));
    }
}
