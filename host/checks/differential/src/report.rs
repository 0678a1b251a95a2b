//! What a run gives: counts, and the first difference in full.

use std::fmt;

use plain::DETAILS;

/// The numbers of answers (the manual, section 7).
const NUMBERS: [(u32, &str); 17] = [
    (0, "done, modelled, or a record or the end"),
    (1, "declined, unmodelled form"),
    (2, "declined, overflow"),
    (3, "text"),
    (4, "count, kind or flag"),
    (5, "state"),
    (6, "no room for nodes"),
    (7, "no room for statements"),
    (8, "sort"),
    (9, "value"),
    (10, "slices too short"),
    (11, "wrong mark"),
    (12, "ends early"),
    (13, "input too long"),
    (31, "root not in the list"),
    (32, "text does not fit"),
    (41, "no text of the subset"),
];

/// The details of a decline, in their order (the manual, section 7).
const DETAIL_NAMES: [&str; DETAILS.len()] = [
    "unknown name",
    "number of operands",
    "kind of an operand",
    "address unknown",
    "width",
];

/// The counts of a run.
#[derive(Debug, Default, Clone)]
pub struct Report {
    /// How many cases were compared.
    pub compared: u64,
    /// How many of them expect each number.
    numbers: [u64; NUMBERS.len()],
    /// How many declines expect each detail.
    pub details: [u64; DETAILS.len()],
    /// Further counts, by name.
    pub notes: Vec<(&'static str, u64)>,
    /// How many differed.
    pub differences: u64,
    /// The first difference, with its input.
    pub first: Option<String>,
}

impl Report {
    /// Count a case that expects `number`.
    pub fn count(&mut self, number: u32) {
        self.compared += 1;
        self.numbers[place(number)] += 1;
    }

    /// How many cases expect `number`.
    #[must_use]
    pub fn expecting(&self, number: u32) -> u64 {
        self.numbers[place(number)]
    }

    /// Count a detail, if it is one.
    pub fn count_detail(&mut self, detail: u32) {
        if let Some(at) = DETAILS.iter().position(|&d| d == detail) {
            self.details[at] += 1;
        }
    }

    /// Add to a named count.
    pub fn note(&mut self, name: &'static str, more: u64) {
        match self.notes.iter_mut().find(|(n, _)| *n == name) {
            Some((_, count)) => *count += more,
            None => self.notes.push((name, more)),
        }
    }

    /// Count a difference, and keep the first.
    pub fn differs(&mut self, say: impl FnOnce() -> String) {
        self.differences += 1;
        if self.first.is_none() {
            self.first = Some(say());
        }
    }

    #[must_use]
    pub fn is_equal(&self) -> bool {
        self.differences == 0
    }
}

impl fmt::Display for Report {
    fn fmt(&self, f: &mut fmt::Formatter<'_>) -> fmt::Result {
        writeln!(f, "compared {}", self.compared)?;
        for (count, (number, name)) in self.numbers.iter().zip(NUMBERS) {
            if *count != 0 {
                writeln!(f, "  expecting {number} ({name}): {count}")?;
            }
        }
        if self.details != [0; DETAILS.len()] {
            let details = DETAILS.iter().zip(DETAIL_NAMES).zip(self.details);
            for ((detail, name), count) in details {
                writeln!(f, "  with detail {detail} ({name}): {count}")?;
            }
        }
        for (name, count) in &self.notes {
            writeln!(f, "  {name}: {count}")?;
        }
        writeln!(f, "different {}", self.differences)?;
        match &self.first {
            Some(first) => write!(f, "the first difference:\n{first}"),
            None => Ok(()),
        }
    }
}

/// Where a number stands among all.
fn place(number: u32) -> usize {
    let found = NUMBERS.iter().position(|(n, _)| *n == number);
    found.unwrap_or_else(|| panic!("{number} is no answer"))
}

/// Bytes in hexadecimal.
#[must_use]
pub fn hex(bytes: &[u8]) -> String {
    bytes.iter().map(|b| format!("{b:02x}")).collect()
}
