//! The lifter.

use sleetgate_sys::{DETAIL, STATE, STEP};

use crate::record::place;
use crate::rows::ROW;
use crate::{Instruction, Nodes, Refusal, RefusedRecord, Statements, Why};

/// The largest room of a list.
pub(crate) const MOST_ROWS: usize = 65_535;

/// The rooms of the program `x87lift`.
const PROGRAM_NODES: usize = 1_024;
const PROGRAM_STATEMENTS: usize = 256;

/// Where the numbers after the slots stand in a state's words.
const SLOTS: usize = 8;
const DEPTH: usize = 8;
const NODES: usize = 9;
const STATEMENTS: usize = 10;
const INPUTS: usize = 11;
const TEMPORARIES: usize = 12;

/// What became of an instruction that was not refused.
#[derive(Debug, Clone, Copy, PartialEq, Eq, Hash)]
pub enum Lifted {
    /// 0: its nodes and statements were added.
    Modelled,
    /// It is not modelled: a statement says so, and the stack is
    /// forgotten, so that no stale value is carried on.
    Declined(Why),
}

/// The state of a lift: the stack and the counts (manual, section 3).
///
/// It is valid where `depth` is at most 8, each used slot is a node of the
/// list, unused slots are 0, inputs and temporaries together are at most
/// as many as nodes, and both lists have room for their counts.
#[derive(Debug, Clone, Copy, PartialEq, Eq, Hash, Default)]
pub struct State {
    /// The node of each place, the top first; unused ones are 0.
    pub slots: [u64; SLOTS],
    /// How many places are known.
    pub depth: u64,
    /// How many nodes the list has.
    pub nodes: u64,
    /// How many statements the list has.
    pub statements: u64,
    /// How many inputs were named.
    pub inputs: u64,
    /// How many temporaries were named.
    pub temporaries: u64,
}

/// A lift under way: the state, and lists of nodes and statements of a
/// chosen room.
#[derive(Debug, Clone)]
pub struct Lifter {
    state: [u64; STATE],
    nodes: Vec<u64>,
    statements: Vec<u64>,
}

/// A fresh lift with the rooms of the program `x87lift`: 1,024 nodes and
/// 256 statements.
///
/// ```
/// use sleetgate::{Instruction, Lifter, Refusal};
///
/// let mut lifter = Lifter::default();
/// let unknown = Instruction::new(0, "fsin", []);
/// for _ in 0..256 {
///     lifter.lift(&unknown)?;
/// }
/// assert_eq!(lifter.lift(&unknown), Err(Refusal::StatementRoom));
/// # Ok::<(), Refusal>(())
/// ```
impl Default for Lifter {
    fn default() -> Self {
        Self::with_capacity(PROGRAM_NODES, PROGRAM_STATEMENTS)
    }
}

impl Lifter {
    /// A fresh lift with room for so many nodes and statements, at most
    /// 65,535 of each.
    ///
    /// ```
    /// use sleetgate::{Instruction, Lifter, Refusal};
    ///
    /// let mut lifter = Lifter::with_capacity(1, 0);
    /// assert!(lifter.lift(&Instruction::new(0, "fldz", [])).is_ok());
    /// assert_eq!(lifter.lift(&Instruction::new(2, "fldz", [])), Err(Refusal::NodeRoom));
    /// assert_eq!(lifter.lift(&Instruction::new(4, "fsin", [])), Err(Refusal::StatementRoom));
    /// assert_eq!(lifter.stack(), [0]);
    /// ```
    #[must_use]
    pub fn with_capacity(nodes: usize, statements: usize) -> Self {
        Self {
            state: [0; STATE],
            nodes: vec![0; nodes.min(MOST_ROWS) * ROW],
            statements: vec![0; statements.min(MOST_ROWS) * ROW],
        }
    }

    /// Lift one instruction.
    ///
    /// ```
    /// use sleetgate::{Detail, Instruction, Lifted, Lifter, Why};
    ///
    /// let mut lifter = Lifter::with_capacity(1_024, 256);
    /// assert_eq!(lifter.lift(&Instruction::new(0, "fld1", [])), Ok(Lifted::Modelled));
    /// let declined = Lifted::Declined(Why::Form(Detail::UnknownName));
    /// assert_eq!(lifter.lift(&Instruction::new(2, "fsin", [])), Ok(declined));
    /// assert_eq!(lifter.stack(), []);
    /// ```
    ///
    /// # Errors
    /// [`Refusal::State`], [`Refusal::Shape`], [`Refusal::Text`],
    /// [`Refusal::NodeRoom`], [`Refusal::StatementRoom`], in this order;
    /// nothing is changed then.
    pub fn lift(&mut self, insn: &Instruction) -> Result<Lifted, Refusal> {
        let mut out = [0; DETAIL];
        let number = sleetgate_sys::lift(
            &insn.flat(),
            &mut self.state,
            &mut self.nodes,
            &mut self.statements,
            &mut out,
        );
        match Refusal::told(number, 0) {
            Some(refusal) => Err(refusal),
            None => Ok(lifted(number, out[0])),
        }
    }

    /// Read the record at `at` and lift its instruction. Gives the next
    /// place, or `None` at the end mark.
    ///
    /// ```
    /// use sleetgate::{Instruction, Lifted, Lifter, write_end, write_record};
    ///
    /// let mut bytes = Vec::new();
    /// write_record(&Instruction::new(16, "fld1", []), &mut bytes)?;
    /// write_record(&Instruction::new(18, "fchs", []), &mut bytes)?;
    /// write_end(&mut bytes);
    /// let mut lifter = Lifter::with_capacity(1_024, 256);
    /// let mut at = 0;
    /// while let Some((lifted, next)) = lifter.lift_record(&bytes, at)? {
    ///     assert_eq!(lifted, Lifted::Modelled);
    ///     at = next;
    /// }
    /// assert_eq!((lifter.nodes().len(), lifter.stack()), (3, [2].as_slice()));
    /// # Ok::<(), Box<dyn std::error::Error>>(())
    /// ```
    ///
    /// # Errors
    /// As [`read_record`](crate::read_record) and [`Lifter::lift`], with
    /// the place.
    pub fn lift_record(
        &mut self,
        input: &[u8],
        at: usize,
    ) -> Result<Option<(Lifted, usize)>, RefusedRecord> {
        let mut out = [0; STEP];
        let number = sleetgate_sys::lift_record(
            input,
            at,
            &mut self.state,
            &mut self.nodes,
            &mut self.statements,
            &mut out,
        );
        let place = place(out[0]);
        match Refusal::told(number, 0) {
            Some(refusal) => Err(RefusedRecord { refusal, place }),
            None => Ok((out[1] != 0).then(|| (lifted(number, out[2]), place))),
        }
    }

    /// The nodes so far.
    ///
    /// ```
    /// use sleetgate::{Instruction, Lifter, Node};
    ///
    /// let mut lifter = Lifter::with_capacity(16, 16);
    /// lifter.lift(&Instruction::new(0, "fldz", []))?;
    /// assert_eq!(lifter.nodes().get(0), Some(Node::Constant { value: 0, bits: 79 }));
    /// # Ok::<(), sleetgate::Refusal>(())
    /// ```
    #[must_use]
    pub fn nodes(&self) -> Nodes<'_> {
        Nodes::new(written(&self.nodes, self.state[NODES]))
    }

    /// The statements so far.
    ///
    /// ```
    /// use sleetgate::{Detail, Instruction, Lifter, Statement, Why};
    ///
    /// let mut lifter = Lifter::with_capacity(16, 16);
    /// lifter.lift(&Instruction::new(7, "fsin", []))?;
    /// let declined = Statement::Unsupported { answer: Why::Form(Detail::UnknownName), address: 7 };
    /// assert_eq!(lifter.statements().get(0), Some(declined));
    /// # Ok::<(), sleetgate::Refusal>(())
    /// ```
    #[must_use]
    pub fn statements(&self) -> Statements<'_> {
        Statements::new(written(&self.statements, self.state[STATEMENTS]))
    }

    /// The node of each known place, the top first.
    ///
    /// ```
    /// use sleetgate::{Instruction, Lifter};
    ///
    /// let mut lifter = Lifter::with_capacity(16, 16);
    /// for name in ["fld1", "fldz", "fxch"] {
    ///     lifter.lift(&Instruction::new(0, name, []))?;
    /// }
    /// assert_eq!(lifter.stack(), [0, 1]);
    /// # Ok::<(), sleetgate::Refusal>(())
    /// ```
    #[must_use]
    pub fn stack(&self) -> &[u64] {
        let depth = usize::try_from(self.state[DEPTH]).unwrap_or(SLOTS);
        &self.state[..depth.min(SLOTS)]
    }

    /// The state, to go on from later.
    ///
    /// ```
    /// use sleetgate::{Lifter, State};
    ///
    /// assert_eq!(Lifter::with_capacity(16, 16).state(), State::default());
    /// ```
    #[must_use]
    pub fn state(&self) -> State {
        let mut slots = [0; SLOTS];
        slots.copy_from_slice(&self.state[..SLOTS]);
        State {
            slots,
            depth: self.state[DEPTH],
            nodes: self.state[NODES],
            statements: self.state[STATEMENTS],
            inputs: self.state[INPUTS],
            temporaries: self.state[TEMPORARIES],
        }
    }

    /// Go on from another state, for example the one before a branch. The
    /// next call tests whether it is valid.
    ///
    /// ```
    /// use sleetgate::{Instruction, Lifter, Refusal, State};
    ///
    /// let mut lifter = Lifter::with_capacity(16, 16);
    /// lifter.lift(&Instruction::new(0, "fld1", []))?;
    /// let before = lifter.state();
    /// lifter.lift(&Instruction::new(2, "fchs", []))?;
    /// lifter.go_on_from(before);
    /// assert_eq!(lifter.stack(), [0]);
    ///
    /// lifter.go_on_from(State { depth: 9, ..before });
    /// assert_eq!(lifter.lift(&Instruction::new(4, "fchs", [])), Err(Refusal::State));
    /// # Ok::<(), sleetgate::Refusal>(())
    /// ```
    pub fn go_on_from(&mut self, state: State) {
        self.state[..SLOTS].copy_from_slice(&state.slots);
        self.state[DEPTH] = state.depth;
        self.state[NODES] = state.nodes;
        self.state[STATEMENTS] = state.statements;
        self.state[INPUTS] = state.inputs;
        self.state[TEMPORARIES] = state.temporaries;
    }
}

/// What the numbers 0 to 2 say, with the detail beside them.
fn lifted(number: u32, detail: u64) -> Lifted {
    Why::told(number, detail).map_or(Lifted::Modelled, Lifted::Declined)
}

/// The words of the first rows of a list, as far as it goes.
fn written(list: &[u64], rows: u64) -> &[u64] {
    let rows = usize::try_from(rows).unwrap_or(usize::MAX);
    let words = rows.saturating_mul(ROW).min(list.len());
    &list[..words]
}
