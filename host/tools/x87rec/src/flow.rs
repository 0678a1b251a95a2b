//! What is known of the machine before each line: along a way, or, for a
//! whole text, along all its ways at once.

use std::collections::{BTreeMap, BTreeSet};
use std::ops::Bound::{Excluded, Unbounded};

use crate::address::address;
use crate::line::{Code, Line};
use crate::machine::{Calls, Machine};
use crate::memory::Value;
use crate::names::{RSP, register};
use crate::path::Step;
use crate::place::Version;

/// What calls do to the stack pointer.
pub struct Callees {
    /// The bytes of a stack entry.
    word: i64,
    /// Bytes that functions of the text take at their return, by their
    /// address.
    returns: BTreeMap<u64, i64>,
    /// Where functions of the text begin, by the names that stand there
    /// once.
    names: BTreeMap<String, Option<u64>>,
    /// Calls of which it is not known what they take.
    doubtful: BTreeSet<u64>,
    /// What a call takes, where the way's return tells.
    solved: BTreeMap<u64, i64>,
}

impl Callees {
    /// What the text tells.
    pub fn of(lines: &[Line], word: i64) -> Self {
        let mut returns: BTreeMap<u64, Option<i64>> = BTreeMap::new();
        let mut names: BTreeMap<String, Option<u64>> = BTreeMap::new();
        let mut function = None;
        let targets = call_targets(lines);
        for code in lines.iter().filter_map(Line::code) {
            let before = &code.before;
            if before.broken || before.symbol.is_some() || targets.contains(&code.address) {
                function = Some(code.address);
            }
            if let Some(name) = before.symbol.clone() {
                let other = names.contains_key(&name);
                names.insert(name, (!other).then_some(code.address));
            }
            if let Some(function) = function.filter(|_| code.is_return()) {
                let taken = taken(code);
                let known = returns.entry(function).or_insert(Some(taken));
                *known = known.filter(|&known| known == taken);
            }
        }
        let known = |(address, taken): (u64, Option<i64>)| Some((address, taken?));
        Self {
            word,
            returns: returns.into_iter().filter_map(known).collect(),
            names,
            doubtful: BTreeSet::new(),
            solved: BTreeMap::new(),
        }
    }

    /// Whether the text tells what a call takes from the stack.
    pub fn is_told(&self, code: &Code) -> bool {
        self.word == 8 || self.taken(code).is_some()
    }

    /// What the called function takes, by its address or its name.
    fn taken(&self, code: &Code) -> Option<i64> {
        let named = || *self.names.get(code.symbol()?)?;
        let function = code.target().or_else(named)?;
        self.returns.get(&function).copied()
    }

    pub fn is_doubtful(&self, code: &Code) -> bool {
        self.doubtful.contains(&code.address)
    }
}

/// The bytes that a return takes besides its address.
fn taken(code: &Code) -> i64 {
    let text = code.operands.first();
    let bytes = text.and_then(|text| crate::address::immediate(&text.to_ascii_lowercase()));
    bytes
        .and_then(|bytes| i64::try_from(bytes).ok())
        .unwrap_or(0)
}

/// Where the calls of a text go.
fn call_targets(lines: &[Line]) -> BTreeSet<u64> {
    let code = lines.iter().filter_map(Line::code);
    code.filter(|code| code.is_call() && !code.is_call_to_next())
        .filter_map(Code::target)
        .collect()
}

impl Calls for Callees {
    fn word(&self) -> i64 {
        self.word
    }

    fn cleaned(&self, code: &Code) -> Option<i64> {
        if self.is_doubtful(code) {
            return None;
        }
        let solved = self.solved.get(&code.address).copied();
        Some(self.taken(code).or(solved).unwrap_or(0))
    }
}

/// What is known before each line of a way. A call takes nothing from the
/// stack, or more: where the way returns with the stack pointer of its
/// entry, no call on it took anything, and where it has one call alone
/// that the text does not tell of, the return tells what that took. It
/// tells nothing of a call behind which the stack pointer is set anew, as
/// `leave` does. Where it is not told, the stack pointer is not known
/// behind the call.
pub fn along(steps: &[Step], callees: &mut Callees) -> Vec<Machine> {
    let calls = Called::on(steps, callees);
    callees.doubtful.extend(calls.hidden);
    let first = walked(steps, callees);
    let entry = steps.first().map_or(0, |step| step.code.address);
    let last = steps.last().filter(|step| step.code.is_return());
    let back = last.and(first.last());
    let missing = back.and_then(|machine| missing(machine, entry));
    match (missing, &calls.seen[..]) {
        (Some(0), _) => return first,
        (Some(bytes), &[call]) => drop(callees.solved.insert(call, bytes)),
        // The text tells wrong of a call that it has.
        (_, []) if last.is_some() => callees.doubtful.extend(calls.told),
        (_, []) => return first,
        _ => callees.doubtful.extend(calls.seen),
    }
    walked(steps, callees)
}

/// The calls on a way, by what tells what they take.
#[derive(Default)]
struct Called {
    /// The text has the function.
    told: Vec<u64>,
    /// The stack pointer is set anew behind them.
    hidden: Vec<u64>,
    /// The return tells.
    seen: Vec<u64>,
}

impl Called {
    fn on(steps: &[Step], callees: &Callees) -> Self {
        let set = steps.iter().rposition(|step| sets_pointer(&step.code));
        let mut calls = Self::default();
        for (at, step) in steps.iter().enumerate() {
            let code = &step.code;
            if !is_true_call(code) {
                continue;
            }
            let kind = if callees.is_told(code) {
                &mut calls.told
            } else if set.is_some_and(|set| at < set) {
                &mut calls.hidden
            } else {
                &mut calls.seen
            };
            kind.push(code.address);
        }
        calls
    }
}

/// Whether this calls a function.
fn is_true_call(code: &Code) -> bool {
    code.is_call() && !code.is_call_to_next()
}

/// Whether an instruction sets the stack pointer to what does not hang on
/// the one before.
fn sets_pointer(code: &Code) -> bool {
    let operand = |number: usize| {
        code.operands
            .get(number)
            .map(|text| text.to_ascii_lowercase())
    };
    let is_pointer = |text: &String| matches!(register(text), Some((RSP, _)));
    let first = operand(0).is_some_and(|text| is_pointer(&text));
    let moved = match code.name.as_str() {
        "leave" => return true,
        "lea" => operand(1)
            .and_then(|text| address(&text))
            .is_some_and(|sum| {
                let on = |(name, _): &(String, u64)| is_pointer(name);
                sum.registers.iter().any(on)
            }),
        "add" | "sub" | "and" | "push" | "cmp" | "test" => true,
        _ => false,
    };
    let exchanged = code.name == "xchg" && operand(1).is_some_and(|text| is_pointer(&text));
    first && !moved || exchanged
}

/// Whether the stack pointer is that of an entry.
fn is_back(machine: &Machine) -> bool {
    matches!(machine.pointer(), Value::Stack(Version::Entry(_), 0))
}

/// How far below that of the entry the stack pointer is.
fn missing(machine: &Machine, entry: u64) -> Option<i64> {
    match machine.pointer() {
        Value::Stack(base, offset) if base == Version::Entry(entry) && offset <= 0 => {
            offset.checked_neg()
        }
        _ => None,
    }
}

fn walked(steps: &[Step], callees: &Callees) -> Vec<Machine> {
    let Some(first) = steps.first() else {
        return Vec::new();
    };
    let mut machine = Machine::entry(first.code.address, callees.word);
    let mut all = Vec::new();
    let mut visits: BTreeMap<u64, u32> = BTreeMap::new();
    for step in steps {
        let visit = visits.entry(step.code.address).or_default();
        *visit += 1;
        machine.visit = *visit;
        all.push(machine.clone());
        machine.step(&step.code, callees);
    }
    all
}

/// What is known before each line of a text, whichever way leads there.
/// The returns of a function tell of its calls, as for a way, where it
/// does not set the stack pointer anew.
pub fn through(lines: &[Line], callees: &mut Callees) -> BTreeMap<u64, Machine> {
    let text = Text::of(lines);
    let functions = |is: &dyn Fn(&Code) -> bool| -> BTreeSet<u64> {
        let code = text.code.values().filter(|code| is(code));
        code.map(|code| text.function(code.address)).collect()
    };
    let restoring = functions(&sets_pointer);
    let untold: Vec<(u64, u64)> = text
        .code
        .values()
        .filter(|code| is_true_call(code) && !callees.is_told(code))
        .map(|code| (code.address, text.function(code.address)))
        .collect();
    let hidden = untold
        .iter()
        .filter(|(_, function)| restoring.contains(function));
    callees.doubtful.extend(hidden.map(|(call, _)| call));
    let first = text.solve(callees);
    let wrong =
        functions(&|code| code.is_return() && !first.get(&code.address).is_some_and(is_back));
    let doubtful = untold
        .iter()
        .filter(|(_, function)| wrong.contains(function));
    let before = callees.doubtful.len();
    callees.doubtful.extend(doubtful.map(|(call, _)| call));
    if callees.doubtful.len() == before {
        return first;
    }
    text.solve(callees)
}

/// Whether a symbol names the part of a function that is seldom run and
/// stands elsewhere.
pub fn is_cold(symbol: &str) -> bool {
    symbol.ends_with(".cold") || symbol.contains(".cold.")
}

/// The lines of a text by address, and where functions begin.
struct Text<'a> {
    code: BTreeMap<u64, &'a Code>,
    entries: BTreeSet<u64>,
    /// Lines that a jump goes to or that stand behind one.
    blocks: BTreeSet<u64>,
}

impl<'a> Text<'a> {
    fn of(lines: &'a [Line]) -> Self {
        let mut code = BTreeMap::new();
        let mut entries = BTreeSet::new();
        for line in lines.iter().filter_map(Line::code) {
            let before = &line.before;
            let cold = before.symbol.as_deref().is_some_and(is_cold);
            let first = code.is_empty() || before.broken || before.symbol.is_some();
            if first && !cold {
                entries.insert(line.address);
            }
            code.entry(line.address).or_insert(line);
        }
        let targets = call_targets(lines).into_iter();
        entries.extend(targets.filter(|target| code.contains_key(target)));
        let jumps = code.values().filter(|code| code.is_jump());
        let blocks = jumps.flat_map(|code| code.target().into_iter().chain(code.next));
        let blocks = blocks.collect();
        Self {
            code,
            entries,
            blocks,
        }
    }

    /// Where the function of a line begins.
    fn function(&self, address: u64) -> u64 {
        let begin = self.entries.range(..=address).next_back();
        begin.copied().unwrap_or(address)
    }

    fn next(&self, address: u64) -> Option<u64> {
        self.code
            .range((Excluded(address), Unbounded))
            .next()
            .map(|(&next, _)| next)
    }

    /// The lines that may come behind one, if the text tells them.
    fn behind(&self, code: &Code) -> Vec<u64> {
        let mut all = Vec::new();
        if code.name.starts_with('j') || code.name.starts_with("loop") {
            all.extend(code.target());
        }
        if !code.is_return() && code.name != "jmp" {
            all.extend(self.next(code.address));
        }
        all
    }

    /// The lines that a jump whose target is not told may go to: all of its
    /// function but those of the block that it begins with.
    fn anywhere(&self, function: u64) -> impl Iterator<Item = u64> {
        let end = self.entries.range((Excluded(function), Unbounded)).next();
        let first = self.blocks.range(function..).next().copied();
        let first = first.unwrap_or(u64::MAX);
        let lines = match end {
            Some(&end) => self.code.range(first.min(end)..end),
            None => self.code.range(first..),
        };
        lines.map(|(&line, _)| line)
    }

    /// What is known before each line. Lines that no line leads to are come
    /// to from where the text does not tell, and lead to no line that
    /// others lead to.
    fn solve(&self, callees: &Callees) -> BTreeMap<u64, Machine> {
        let mut solver = Solver {
            text: self,
            callees,
            ahead: self.ahead(),
            arrivals: BTreeSet::new(),
            before: BTreeMap::new(),
            after: BTreeMap::new(),
            visits: BTreeMap::new(),
            joints: BTreeMap::new(),
            closed: BTreeSet::new(),
        };
        solver.run(self.entries.clone());
        solver.closed = solver.before.keys().copied().collect();
        for &line in self.code.keys() {
            if !solver.before.contains_key(&line) {
                solver.arrivals.insert(line);
                solver.run(BTreeSet::from([line]));
            }
        }
        solver.before
    }

    /// The lines that may come before each.
    fn ahead(&self) -> BTreeMap<u64, Vec<u64>> {
        let mut ahead: BTreeMap<u64, Vec<u64>> = BTreeMap::new();
        let steps = self.code.iter().flat_map(|(&line, code)| {
            let behind = self.behind(code).into_iter();
            behind.map(move |next| (line, next))
        });
        for (line, next) in steps {
            ahead.entry(next).or_default().push(line);
        }
        ahead
    }
}

/// After so many visits of a line, what is known there only shrinks.
const MANY: u32 = 32;

/// A search for what is known before each line.
struct Solver<'a> {
    text: &'a Text<'a>,
    callees: &'a Callees,
    ahead: BTreeMap<u64, Vec<u64>>,
    /// Lines that no line leads to.
    arrivals: BTreeSet<u64>,
    before: BTreeMap<u64, Machine>,
    after: BTreeMap<u64, Machine>,
    visits: BTreeMap<u64, u32>,
    /// What holds behind all jumps of a function whose targets are not
    /// told, and the first line that they may go to.
    joints: BTreeMap<u64, (Machine, u64)>,
    /// Lines that are done.
    closed: BTreeSet<u64>,
}

impl Solver<'_> {
    /// Go on from these lines as far as anything changes.
    fn run(&mut self, mut work: BTreeSet<u64>) {
        while let Some(line) = work.pop_first() {
            let machine = self.coming(line);
            if self.before.get(&line) == Some(&machine) {
                continue;
            }
            let code = self.text.code[&line];
            let mut behind = machine.clone();
            behind.step(code, self.callees);
            self.before.insert(line, machine);
            if code.is_indirect() {
                work.extend(self.join(line, &behind));
            }
            self.after.insert(line, behind);
            let next = self.text.behind(code).into_iter();
            let open =
                |next: &u64| self.text.code.contains_key(next) && !self.closed.contains(next);
            work.extend(next.filter(open));
        }
    }

    /// Whether a jump goes to where another function begins, with the stack
    /// pointer of its own entry: then it is that function's caller's.
    fn is_tail_call(&self, jump: u64, line: u64) -> bool {
        let goes = self.text.code[&jump].target() == Some(line);
        let elsewhere = self.text.function(jump) != self.text.function(line);
        let back = self.after.get(&jump).is_some_and(is_back);
        goes && elsewhere && self.text.entries.contains(&line) && back
    }

    /// Join what is known behind a jump whose target is not told to that
    /// of the others of its function; the lines for which less is known
    /// then.
    fn join(&mut self, jump: u64, behind: &Machine) -> Vec<u64> {
        let function = self.text.function(jump);
        let Some(first) = self.text.anywhere(function).next() else {
            return Vec::new();
        };
        let less = match self.joints.get_mut(&function) {
            Some((joint, _)) => {
                let old = joint.clone();
                joint.meet(behind, first);
                *joint != old
            }
            None => {
                self.joints.insert(function, (behind.clone(), first));
                true
            }
        };
        if !less {
            return Vec::new();
        }
        let open = |line: &u64| !self.closed.contains(line);
        self.text.anywhere(function).filter(open).collect()
    }

    /// What is known on coming to a line from all lines before it.
    fn coming(&mut self, line: u64) -> Machine {
        let visits = self.visits.entry(line).or_default();
        *visits += 1;
        let old = self.before.get(&line).filter(|_| *visits > MANY);
        let entry = self.text.entries.contains(&line);
        let entry = entry.then(|| Machine::entry(line, self.callees.word));
        let arrival = self.arrivals.contains(&line);
        let arrival = arrival.then(|| Machine::arrival(line, self.callees.word));
        let entry = entry.or(arrival);
        let ahead = self.ahead.get(&line).into_iter().flatten();
        let ways = ahead.filter(|ahead| !self.is_tail_call(**ahead, line));
        let ways = ways.filter_map(|ahead| self.after.get(ahead)).cloned();
        let joint = self.joints.get(&self.text.function(line));
        let joint = joint
            .filter(|(_, first)| *first <= line)
            .map(|(joint, _)| joint.clone());
        let mut ways = entry
            .into_iter()
            .chain(ways)
            .chain(joint)
            .chain(old.cloned());
        let mut machine = ways
            .next()
            .unwrap_or_else(|| Machine::arrival(line, self.callees.word));
        for way in ways {
            machine.meet(&way, line);
        }
        machine
    }
}
