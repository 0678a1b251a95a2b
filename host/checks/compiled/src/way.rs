//! The way that a run took through a function.

use std::collections::BTreeMap;

use program::Program;
use x87rec::{Options, Take, translate};

use crate::belief::PROBES;
use crate::beside::Beside;
use crate::code::Code;
use crate::run::Run;

/// The decision at each visit of each conditional jump.
pub type Decisions = BTreeMap<u32, Vec<bool>>;

/// The steps of a run that are in the function.
#[must_use]
pub fn visits(run: &Run, code: &Code) -> Vec<usize> {
    let steps = run.steps.iter().enumerate();
    let inside = steps.filter(|(_, step)| code.at(step.ip).is_some());
    inside.map(|(at, _)| at).collect()
}

/// The visits without those at which a repeated instruction goes on.
#[must_use]
pub fn begun(run: &Run, visits: &[usize]) -> Vec<usize> {
    let ip = |at: usize| run.steps[at].ip;
    let mut begun = visits.to_vec();
    begun.dedup_by(|later, earlier| ip(*later) == ip(*earlier));
    begun
}

/// The conditional jumps that a run took to elsewhere than the next
/// instruction, but for those over a probe.
#[must_use]
pub fn taken(beside: Beside) -> Vec<u32> {
    let visits = 0..beside.visits.len();
    let jumps = visits.filter(|&at| {
        let code = beside.instruction(at);
        code.is_some_and(|code| code.is_conditional_jump() && !PROBES.contains(&code.name.as_str()))
    });
    let ends = jumps.map(|at| (beside.before(at).ip, beside.behind(at).ip));
    ends.filter(|&(ip, next)| beside.code.behind(ip) != Some(next))
        .map(|(ip, _)| ip)
        .collect()
}

/// What was decided at the visits of a run.
#[must_use]
pub fn decisions(run: &Run, code: &Code, visits: &[usize]) -> Decisions {
    let mut decisions = Decisions::new();
    for &visit in visits {
        let ip = run.steps[visit].ip;
        if code.at(ip).is_some_and(|code| code.is_conditional_jump()) {
            let taken = code.behind(ip) != Some(run.steps[visit + 1].ip);
            decisions.entry(ip).or_default().push(taken);
        }
    }
    decisions
}

/// A function in a disassembly.
#[derive(Debug, Clone, Copy)]
pub struct Asked<'a> {
    pub objdump: &'a str,
    pub function: &'a str,
    pub assume_reset: bool,
}

/// The text that is shown for a way through a function.
///
/// # Errors
/// Where a tool refuses it.
pub fn shown(program: &Program, asked: Asked, decisions: &Decisions) -> Result<String, String> {
    let takes = decisions.iter().map(|(&address, decisions)| Take {
        address: address.into(),
        decisions: Some(decisions.clone()),
    });
    let options = Options {
        function: Some(asked.function.to_owned()),
        path: Some(takes.collect()),
        assume_reset: asked.assume_reset,
        ..Options::default()
    };
    let records = translate(asked.objdump, &options).map_err(|wrong| wrong.to_string())?;
    let listing = program.listing(&records.bytes());
    let listing = listing.map_err(|wrong| wrong.to_string())?;
    let listing = String::from_utf8(listing).map_err(|wrong| wrong.to_string())?;
    let shown = x87show::show(&listing, Some(&records.notes));
    let shown = shown.map_err(|wrong| wrong.to_string())?;
    if shown.refused {
        return Err(format!("refused: {}", shown.text));
    }
    Ok(shown.text)
}
