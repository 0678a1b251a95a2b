//! Texts and runs of the functions of one disassembly.

use std::collections::HashMap;

use program::Program;

use crate::beside::Beside;
use crate::code::Code;
use crate::reading::{Counts, compare};
use crate::run::{Part, Run};
use crate::way::{Asked, Decisions, decisions, shown, visits};

/// Shows the ways that runs took, each once, and compares.
pub struct Check<'a> {
    program: &'a Program,
    asked: Asked<'a>,
    code: Code,
    /// The texts of ways that were shown before.
    texts: HashMap<Decisions, String>,
}

impl<'a> Check<'a> {
    /// For a function of a disassembly, if it is there.
    #[must_use]
    pub fn new(program: &'a Program, asked: Asked<'a>) -> Option<Self> {
        Some(Self {
            program,
            asked,
            code: Code::of(asked.objdump, asked.function)?,
            texts: HashMap::new(),
        })
    }

    /// Where the function begins.
    #[must_use]
    pub fn entry(&self) -> Option<u32> {
        self.code.entry()
    }

    /// The texts of the ways that were shown.
    pub fn texts(&self) -> impl Iterator<Item = &String> {
        self.texts.values()
    }

    /// Compare a run with the text of its way.
    ///
    /// # Errors
    /// The first difference, with the text.
    pub fn run(&mut self, run: &Run, parts: &[Part], counts: &mut Counts) -> Result<(), String> {
        let visits = visits(run, &self.code);
        let decisions = decisions(run, &self.code, &visits);
        if !self.texts.contains_key(&decisions) {
            let text = shown(self.program, self.asked, &decisions);
            let text = text.map_err(|why| format!("{}: {why}", self.asked.function))?;
            self.texts.insert(decisions.clone(), text);
        }
        let text = &self.texts[&decisions];
        let beside = Beside {
            run,
            parts,
            code: &self.code,
            visits: &visits,
        };
        compare(text, beside, counts)
            .map_err(|why| format!("{}: {why}\nin\n{text}", self.asked.function))
    }
}
