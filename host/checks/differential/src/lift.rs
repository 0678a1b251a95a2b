//! The lifter, compared with the Rust: answer, state, every word of both
//! lists, and the real trees; and the detail of a decline, as it is told
//! and as it stands in the list, compared with what is said plainly.

use plain::state::{DEPTH, INPUTS, NODES, ROW, STATE, STATEMENTS, room, valid};
use plain::{BAD_STATE, FLAT, Instruction, NO_NODES, NO_STATEMENTS, TOO_SHORT, refusal};
use sleetgate_sys::DETAIL;

use crate::instructions::{Grid, put_out_of_range};
use crate::report::{Report, hex};
use crate::rng::Rng;
use crate::sequences::Profile;
use crate::steps::{Step, step, words};
use crate::subject::Subject;
use crate::trees::Follower;

/// What unwritten words of the lists hold.
const UNWRITTEN: u64 = 0xa5a5_0000_5a5a_0000;

/// Both lists, or as much of them as a call is lent.
#[derive(Clone, PartialEq, Eq)]
struct Lists {
    nodes: Vec<u64>,
    statements: Vec<u64>,
}

impl Lists {
    /// Unwritten lists of so many words.
    fn new(nodes: usize, statements: usize) -> Self {
        Self {
            nodes: vec![UNWRITTEN; nodes],
            statements: vec![UNWRITTEN; statements],
        }
    }

    /// Lay in the rows of a step that began in this state.
    fn write(&mut self, before: &[u64; STATE], step: &Step) {
        write(&mut self.nodes, &mut self.statements, before, step);
    }
}

/// Lay the rows of a step that began in this state into both lists.
pub fn write(nodes: &mut [u64], statements: &mut [u64], before: &[u64], step: &Step) {
    lay(nodes, before[NODES], &words(&step.nodes));
    lay(statements, before[STATEMENTS], &words(&step.statements));
}

fn lay(list: &mut [u64], first: u64, words: &[u64]) {
    let at = index(first) * ROW;
    list[at..at + words.len()].copy_from_slice(words);
}

fn index(number: u64) -> usize {
    usize::try_from(number).expect("in memory")
}

/// What stands beyond the bytes of an instruction.
const BEYOND: u8 = 0xa5;

/// What one call is lent.
struct Call {
    flat: Vec<u8>,
    /// The state's words, of which more or fewer than 13 may be lent.
    state: Vec<u64>,
    /// Words of each list.
    nodes: usize,
    statements: usize,
    /// The words to be told.
    told: Vec<u64>,
}

impl Call {
    fn expected(&self) -> Expected {
        let told = self.told.len();
        expect(&self.flat, &self.state, self.nodes, self.statements, told)
    }
}

/// A number, and the state and the words to be told after the call.
#[derive(Debug, PartialEq, Eq)]
struct Answer {
    number: u32,
    state: Vec<u64>,
    told: Vec<u64>,
}

impl Answer {
    /// The number, beside words that are as they were before the call.
    fn before(number: u32, call: &Call) -> Self {
        Self {
            number,
            state: call.state.clone(),
            told: call.told.clone(),
        }
    }
}

/// What a call is expected to give.
pub struct Expected {
    pub number: u32,
    /// The step, where the call changes anything.
    pub step: Option<Step>,
}

impl Expected {
    fn refused(number: u32) -> Self {
        Self { number, step: None }
    }

    /// Tell the detail, where it has room.
    pub fn tell(&self, out: &mut [u64]) {
        if let Some(word) = out.first_mut() {
            *word = self.step.as_ref().map_or(0, |step| step.detail.into());
        }
    }
}

/// The order of answers (the manual, section 7) over the oracle's step:
/// 10, 5, 4, 3, 6, 7, then what the Rust says. The lists, and what is to
/// be told, are lent with so many words.
#[must_use]
pub fn expect(
    flat: &[u8],
    state: &[u64],
    nodes: usize,
    statements: usize,
    told: usize,
) -> Expected {
    let (Some(flat), Some(state)) = (flat.first_chunk::<FLAT>(), state.first_chunk::<STATE>())
    else {
        return Expected::refused(TOO_SHORT);
    };
    if told < DETAIL {
        return Expected::refused(TOO_SHORT);
    }
    let (nodes, statements) = (room(nodes), room(statements));
    if !valid(state, nodes, statements) {
        return Expected::refused(BAD_STATE);
    }
    let insn = Instruction::from_flat(flat);
    if let Some(number) = refusal(&insn) {
        return Expected::refused(number);
    }
    let step = step(state, &insn);
    if step.state[NODES] > nodes {
        return Expected::refused(NO_NODES);
    }
    if step.state[STATEMENTS] > statements {
        return Expected::refused(NO_STATEMENTS);
    }
    Expected {
        number: step.answer,
        step: Some(step),
    }
}

/// Compare `size` sequences.
pub fn run(subject: &impl Subject, size: u64, seed: u64) -> Report {
    let grid = Grid::default();
    let mut report = Report::default();
    for number in 0..size {
        let mut rng = Rng::new(seed ^ number.wrapping_mul(0x9e37_79b9_7f4a_7c15));
        sequence(subject, &grid, &mut rng, number, &mut report);
    }
    report.note("sequences", size);
    report
}

/// One sequence under way.
struct Sequence<'a, S> {
    subject: &'a S,
    /// The sequence's number, for a difference's report.
    number: u64,
    /// What the subject has, and what it is expected to have.
    got: Lists,
    expected: Lists,
    state: [u64; STATE],
    /// Instructions so far.
    lifted: Vec<Instruction>,
    follower: Option<Follower>,
}

fn sequence(subject: &impl Subject, grid: &Grid, rng: &mut Rng, number: u64, report: &mut Report) {
    let profile = Profile::random(rng);
    let fresh = !rng.one_in(8);
    let state = if fresh { [0; STATE] } else { random_state(rng) };
    let lists = random_lists(rng, &state, profile.length);
    let mut sequence = Sequence {
        subject,
        number,
        got: lists.clone(),
        expected: lists,
        state,
        lifted: Vec::new(),
        follower: fresh.then(Follower::default),
    };
    for _ in 0..profile.length {
        let insn = profile.next(grid, rng, index(sequence.state[DEPTH]));
        if rng.one_in(4) {
            sequence.refuse(&insn, rng, report);
        }
        sequence.advance(&insn, rng, report);
    }
    sequence.finish(report);
}

/// A valid state that no sequence needs to reach.
fn random_state(rng: &mut Rng) -> [u64; STATE] {
    let mut state = [0; STATE];
    let nodes = if rng.one_in(8) {
        rng.between(65_400, 65_535)
    } else {
        rng.between(1, 300)
    };
    let depth = rng.below(9);
    for slot in &mut state[..depth] {
        *slot = rng.below(nodes) as u64;
    }
    let inputs = rng.below(nodes + 1);
    let temporaries = rng.below(nodes - inputs + 1);
    let statements = rng.below(100);
    let numbers = [depth, nodes, statements, inputs, temporaries];
    for (word, number) in state[DEPTH..].iter_mut().zip(numbers) {
        *word = number as u64;
    }
    state
}

/// Lists that hold the state, with room for all, for some or for none of
/// the sequence; seldom a whole number of rows.
fn random_lists(rng: &mut Rng, state: &[u64; STATE], length: usize) -> Lists {
    let mut words = |used: u64, each: usize| {
        let more = match rng.below(20) {
            0 => rng.below(each * length / 4 + 2),
            1 => rng.below(each + 1),
            _ => each * length + 50,
        };
        (index(used) + more) * ROW + rng.below(ROW)
    };
    let nodes = words(state[NODES], 14);
    let statements = words(state[STATEMENTS], 3);
    Lists::new(nodes, statements)
}

impl<S: Subject> Sequence<'_, S> {
    /// Lift one instruction with all of the lists lent, or with just as
    /// many rows as it needs.
    fn advance(&mut self, insn: &Instruction, rng: &mut Rng, report: &mut Report) {
        self.lifted.push(*insn);
        let mut call = self.call(insn, rng);
        if rng.one_in(4)
            && let Some(step) = call.expected().step
        {
            call.nodes = index(step.state[NODES]) * ROW;
            call.statements = index(step.state[STATEMENTS]) * ROW;
        }
        let before = self.state;
        if let Some(step) = self.compare(call, report) {
            self.state = step.state;
            let (nodes, statements) = (step.state[NODES], step.state[STATEMENTS]);
            if !valid(&step.state, nodes, statements) {
                report.differs(|| format!("the next state is not valid\n{}", self.history()));
            }
            report.note("nodes", step.nodes.len() as u64);
            report.note("inputs", step.state[INPUTS] - before[INPUTS]);
            self.follow(insn, &before, report);
        }
    }

    /// A call that must be refused, or change nothing else than it
    /// should: too little room, a state that is not valid, an
    /// instruction out of range, slices too short.
    fn refuse(&mut self, insn: &Instruction, rng: &mut Rng, report: &mut Report) {
        let mut call = self.call(insn, rng);
        let needed = call.expected().step.map_or(self.state, |step| step.state);
        match rng.below(9) {
            0 => call.nodes = (index(needed[NODES]) * ROW).saturating_sub(1),
            1 => call.statements = (index(needed[STATEMENTS]) * ROW).saturating_sub(1),
            2 => {
                call.nodes = (index(needed[NODES]) * ROW).saturating_sub(ROW);
                call.statements = (index(needed[STATEMENTS]) * ROW).saturating_sub(ROW);
            }
            3 => call.nodes = rng.below(call.nodes + 1),
            4 => call.statements = rng.below(call.statements + 1),
            5 => call.flat.resize(rng.below(2 * FLAT), 0),
            6 => call.state.truncate(rng.below(STATE)),
            7 => call.told.truncate(rng.below(DETAIL)),
            _ => {}
        }
        call.nodes = call.nodes.min(self.got.nodes.len());
        call.statements = call.statements.min(self.got.statements.len());
        if rng.one_in(3) {
            damage_state(&mut call.state, rng);
        }
        if rng.one_in(4) && call.flat.len() >= FLAT {
            let mut insn = *insn;
            put_out_of_range(&mut insn, rng);
            call.flat = insn.to_flat().to_vec();
        }
        // Only refusals: what changes nothing can be tried beside the sequence.
        if call.expected().step.is_none() {
            report.note("tried beside the sequence", 1);
            self.compare(call, report);
        }
    }

    /// The call with all of the lists, and a few bytes and words beyond
    /// the instruction, the state and what is told.
    fn call(&self, insn: &Instruction, rng: &mut Rng) -> Call {
        let mut state = self.state.to_vec();
        state.resize(STATE + rng.below(3), UNWRITTEN);
        let mut flat = insn.to_flat().to_vec();
        flat.resize(FLAT + rng.below(3), BEYOND);
        Call {
            flat,
            state,
            nodes: self.got.nodes.len(),
            statements: self.got.statements.len(),
            told: vec![UNWRITTEN; DETAIL + rng.below(3)],
        }
    }

    /// Make the call and compare: number, state, what is told, and the
    /// lists around the rows that are added. Gives the step, where there
    /// is one.
    fn compare(&mut self, call: Call, report: &mut Report) -> Option<Step> {
        let expected = call.expected();
        report.count(expected.number);
        let mut wanted = Answer::before(expected.number, &call);
        expected.tell(&mut wanted.told);
        if let Some(step) = &expected.step {
            report.count_detail(step.detail);
            wanted.state[..STATE].copy_from_slice(&step.state);
            self.expected.write(&self.state, step);
        }
        let got = self.asked(&call);
        if got != wanted || !self.same_near(&wanted.state) {
            report.differs(|| self.say(&call, &wanted, &got));
            self.got = self.expected.clone();
        }
        expected.step
    }

    /// Make a call.
    fn asked(&mut self, call: &Call) -> Answer {
        let mut answer = Answer::before(0, call);
        answer.number = self.subject.lift(
            &call.flat,
            &mut answer.state,
            &mut self.got.nodes[..call.nodes],
            &mut self.got.statements[..call.statements],
            &mut answer.told,
        );
        answer
    }

    /// Whether the lists are equal from the rows before the state's own
    /// counts to some beyond the new ones. The whole is compared at the
    /// end of the sequence.
    fn same_near(&self, after: &[u64]) -> bool {
        let near = |got: &[u64], expected: &[u64], at: usize| {
            let from = index(self.state[at]).saturating_sub(2) * ROW;
            let after = after.get(at).copied().unwrap_or(0).min(70_000);
            let to = (index(after) + 3) * ROW;
            let to = to.max(from).min(got.len());
            let from = from.min(to);
            got[from..to] == expected[from..to]
        };
        near(&self.got.nodes, &self.expected.nodes, NODES)
            && near(&self.got.statements, &self.expected.statements, STATEMENTS)
    }

    /// Follow with the real trees.
    fn follow(&mut self, insn: &Instruction, before: &[u64; STATE], report: &mut Report) {
        let Some(follower) = &mut self.follower else {
            return;
        };
        let lists = (self.got.nodes.as_slice(), self.got.statements.as_slice());
        if let Err(tree) = follower.follow(insn, before, &self.state, lists) {
            report.differs(|| format!("{tree}\n{}", self.history()));
            self.follower = None;
        }
    }

    /// Compare the lists as a whole, and all slots as trees.
    fn finish(self, report: &mut Report) {
        if self.got != self.expected {
            report.differs(|| format!("a row written earlier\n{}", self.history()));
        }
        let Some(follower) = &self.follower else {
            return;
        };
        if let Err(tree) = follower.finish(&self.state, &self.got.nodes) {
            report.differs(|| format!("{tree}\n{}", self.history()));
        }
        report.note("followed as trees", follower.followed);
        report.note("trees too large", follower.left_out);
    }

    fn say(&self, call: &Call, wanted: &Answer, got: &Answer) -> String {
        let (nodes, statements) = (self.changed(NODES), self.changed(STATEMENTS));
        format!(
            "lift of {}\nwith {} words of nodes and {} of statements\n\
             before   {:?}\nexpected {wanted:?}\ngot      {got:?}\n{nodes}{statements}{}",
            hex(&call.flat),
            call.nodes,
            call.statements,
            call.state,
            self.history()
        )
    }

    /// The rows of a list that differ.
    fn changed(&self, at: usize) -> String {
        let (name, got, expected) = if at == NODES {
            ("node", &self.got.nodes, &self.expected.nodes)
        } else {
            ("statement", &self.got.statements, &self.expected.statements)
        };
        let rows = got.chunks(ROW).zip(expected.chunks(ROW)).enumerate();
        rows.filter(|(_, (g, e))| g != e)
            .map(|(i, (g, e))| format!("{name} {i}: expected {e:?}, got {g:?}\n"))
            .collect()
    }

    /// The instructions of the sequence so far.
    fn history(&self) -> String {
        let lines = self.lifted.iter().map(|insn| {
            let operands: Vec<String> = insn.used().iter().map(operand).collect();
            let name = insn.mnemonic.used().escape_ascii();
            format!("  {name} {}\n", operands.join(", "))
        });
        format!("sequence {}:\n{}", self.number, lines.collect::<String>())
    }
}

fn operand(operand: &plain::Operand) -> String {
    match operand.kind {
        plain::REGISTER => format!("'{}'", operand.text.used().escape_ascii()),
        plain::MEMORY => format!(
            "memory {} known {} at {} slot {}",
            operand.width, operand.known, operand.address, operand.slot
        ),
        kind => format!("kind {kind}"),
    }
}

/// Change one word of a state, often so that it is no longer valid.
fn damage_state(state: &mut [u64], rng: &mut Rng) {
    if state.is_empty() {
        return;
    }
    let at = rng.below(state.len());
    state[at] = match rng.below(5) {
        0 => state[at] + 1,
        1 => rng.below(20) as u64,
        2 => 1 << 32,
        3 => rng.word(),
        _ => state.get(NODES).copied().unwrap_or(0),
    };
}
