//! One way through the code.

use std::collections::{BTreeMap, BTreeSet, HashMap};
use std::ops::Bound::{Excluded, Unbounded};

use crate::Wrong;
use crate::line::{Code, Line};

/// A conditional jump that is taken on the way.
#[derive(Debug, Clone, PartialEq, Eq)]
pub struct Take {
    /// Where it stands.
    pub address: u64,
    /// Whether it is taken, each time that the way comes to it; when these
    /// are used up it is not. `None`: it is always taken.
    pub decisions: Option<Vec<bool>>,
}

/// A line of the way.
pub struct Step {
    pub code: Code,
    /// Whether a conditional jump is taken here.
    pub taken: Option<bool>,
}

/// How a way ends.
#[derive(Debug, Clone, Copy, PartialEq, Eq)]
pub enum End {
    /// At a return.
    Return,
    /// It comes to this line again.
    Again(u64),
    /// A jump leaves the text.
    Leaves,
    /// A jump whose target the text does not tell.
    Indirect,
    /// An instruction stops the processor.
    Stops,
    /// The text has no line behind the last one.
    Off,
}

impl End {
    /// What is said of the stack that follows.
    pub fn words(self) -> String {
        let other = "which is no return; the stack is then";
        match self {
            Self::Return => "the way ends here, at the return, with this stack".to_owned(),
            Self::Again(line) => {
                format!("the way comes to {line:x} again and ends here, {other}")
            }
            Self::Leaves => {
                "the way leaves the code that was asked for and ends here, which is no \
                             return: what is given back is decided there; the stack is then"
                    .to_owned()
            }
            Self::Indirect => {
                format!("goes where the text does not tell, and the way ends here, {other}")
            }
            Self::Stops => format!("stops the processor, and the way ends here, {other}"),
            Self::Off => format!("the text ends behind this line, {other}"),
        }
    }
}

/// A way and its end.
pub struct Way {
    pub steps: Vec<Step>,
    pub end: End,
}

/// The way from the first line on, on which these conditional jumps are
/// taken. No address stands there twice.
pub fn follow(lines: Vec<Line>, takes: &[Take]) -> Result<Way, Wrong> {
    let first = lines.iter().find_map(Line::code).map(|code| code.address);
    let code: BTreeMap<u64, Code> = lines
        .into_iter()
        .filter_map(|line| match line {
            Line::Code(code) => Some((code.address, code)),
            _ => None,
        })
        .collect();
    let mut walk = Walk {
        code: &code,
        takes,
        used: HashMap::new(),
        met: BTreeSet::new(),
        steps: Vec::new(),
    };
    let end = walk.from(first);
    walk.all_used()?;
    Ok(Way {
        steps: walk.steps,
        end,
    })
}

struct Walk<'a> {
    code: &'a BTreeMap<u64, Code>,
    takes: &'a [Take],
    /// How many decisions were used at each jump.
    used: HashMap<u64, usize>,
    /// Lines that the way met since the last decision that was listed.
    met: BTreeSet<u64>,
    steps: Vec<Step>,
}

impl Walk<'_> {
    fn from(&mut self, first: Option<u64>) -> End {
        let mut at = first;
        loop {
            let Some(address) = at else { return End::Off };
            let Some(code) = self.code.get(&address) else {
                return End::Leaves;
            };
            if !self.met.insert(address) {
                return End::Again(address);
            }
            let taken = code.is_conditional().then(|| self.decide(address));
            self.steps.push(Step {
                code: code.clone(),
                taken,
            });
            if code.is_return() {
                return End::Return;
            }
            if code.is_stop() {
                return End::Stops;
            }
            at = if code.name == "jmp" || taken == Some(true) {
                match code.target() {
                    Some(target) => Some(target),
                    None if code.is_indirect() => return End::Indirect,
                    None => return End::Leaves,
                }
            } else {
                self.below(address)
            };
        }
    }

    /// The line below, unless something was left out between.
    fn below(&self, address: u64) -> Option<u64> {
        let (&next, code) = self.code.range((Excluded(address), Unbounded)).next()?;
        (!code.before.broken).then_some(next)
    }

    /// Whether a jump is taken this time. A decision that is listed lets
    /// the way meet its lines again.
    fn decide(&mut self, address: u64) -> bool {
        let Some(take) = self.takes.iter().find(|take| take.address == address) else {
            return false;
        };
        let Some(decisions) = &take.decisions else {
            return true;
        };
        let used = self.used.entry(address).or_default();
        let decision = decisions.get(*used).copied();
        *used += 1;
        if decision.is_some() {
            self.met.clear();
        }
        decision.unwrap_or(false)
    }

    /// Whether the way came to each jump that is listed, as often as there
    /// are decisions.
    fn all_used(&self) -> Result<(), Wrong> {
        for (at, take) in self.takes.iter().enumerate() {
            let address = take.address;
            let came = |step: &&Step| step.code.address == address && step.taken.is_some();
            let times = self.steps.iter().filter(came).count();
            let wanted = take.decisions.as_ref().map_or(1, Vec::len);
            let why = if self.takes[..at]
                .iter()
                .any(|other| other.address == address)
            {
                format!("{address:x} is listed twice")
            } else if times == 0 {
                format!("the way does not come to a conditional jump at {address:x}")
            } else if times < wanted {
                format!("{wanted} decisions at {address:x}, and the way comes there {times} times")
            } else {
                continue;
            };
            return Err(Wrong { line: 0, why });
        }
        Ok(())
    }
}
