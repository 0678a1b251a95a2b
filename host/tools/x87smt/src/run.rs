//! The records, lifted one after the other.

use std::ops::Range;

use sleetgate::{
    Item, Lifted, Lifter, MOST_BYTES, Nodes, Refusal, RefusedRecord, Statements, Why, read_record,
};

use crate::Wrong;

/// What a record did.
pub struct Step {
    pub address: u64,
    pub mnemonic: String,
    pub nodes: Range<usize>,
    pub statements: Range<usize>,
    /// Why it was declined, if it was.
    pub declined: Option<Why>,
}

/// A lift of all records, with the rooms of `x87lift`.
pub struct Run {
    lifter: Lifter,
    pub steps: Vec<Step>,
}

impl Run {
    /// The lift of these records.
    ///
    /// # Errors
    /// The first record that is refused.
    pub fn of(records: &[u8]) -> Result<Self, Wrong> {
        if records.is_empty() {
            return Err(Wrong::NoRecords);
        }
        if records.len() > MOST_BYTES {
            return Err(Wrong::Record(RefusedRecord {
                refusal: Refusal::TooLong,
                place: 0,
            }));
        }
        let mut run = Self {
            lifter: Lifter::default(),
            steps: Vec::new(),
        };
        let mut at = 0;
        while let Some(next) = run.step(records, at).map_err(Wrong::Record)? {
            at = next;
        }
        Ok(run)
    }

    /// Lift the record at `at`, and give the place behind it; none at the end.
    fn step(&mut self, records: &[u8], at: usize) -> Result<Option<usize>, RefusedRecord> {
        let (nodes, statements) = (self.nodes().len(), self.statements().len());
        let lifted = self.lifter.lift_record(records, at)?;
        let (Some((lifted, next)), Item::Record { insn, .. }) = (lifted, read_record(records, at)?)
        else {
            return Ok(None);
        };
        self.steps.push(Step {
            address: insn.address,
            mnemonic: insn.mnemonic,
            nodes: nodes..self.nodes().len(),
            statements: statements..self.statements().len(),
            declined: match lifted {
                Lifted::Modelled => None,
                Lifted::Declined(why) => Some(why),
            },
        });
        Ok(Some(next))
    }

    pub fn nodes(&self) -> Nodes<'_> {
        self.lifter.nodes()
    }

    pub fn statements(&self) -> Statements<'_> {
        self.lifter.statements()
    }

    /// The node of each known place behind the last record, the top first.
    pub fn stack(&self) -> &[u64] {
        self.lifter.stack()
    }
}
