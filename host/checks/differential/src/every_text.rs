//! The reading of every text of small universes and of damaged ones,
//! compared with the list of all of them and with the plain reader.
//!
//! What is listed must be read. Of other bytes the list says how far they
//! begin one of its texts, and so far at least they begin a text of the
//! subset; how far they do among all is said by the plain reader, which is
//! itself held to such lists, universe by universe.

use plain::every_text::{Texts as Listed, damaged, universes};
use plain::state::ROW;
use plain::{MODELLED, NO_TEXT};

use crate::report::Report;
use crate::subject::{Plain, Texts};
use crate::text_reads::{Case, WORDS, say};

/// Texts of each universe that are damaged.
const SAMPLE: usize = 16;

/// Cases in all: 532,726 texts, and 1,119,903 that were damaged.
pub const CASES: u64 = 1_652_629;

/// Compare some `size` of all cases, at equal distances. The seed says where
/// they begin.
///
/// # Panics
/// Where the universes have another number of cases.
pub fn run(subject: &dyn Texts, size: u64, seed: u64) -> Report {
    let step = (CASES / size.max(1)).max(1);
    let mut run = Run {
        subject,
        step,
        next: seed % step,
        seen: 0,
        report: Report::default(),
    };
    for (_, universe) in universes() {
        let listed = Listed::of(&universe);
        for text in &listed.0 {
            run.case(&listed, text.as_bytes(), "texts of a list");
        }
        let sample = listed.sample(SAMPLE);
        for (text, other) in sample.iter().zip(sample.iter().rev()) {
            for bytes in damaged(text.as_bytes(), other.as_bytes()) {
                run.case(&listed, &bytes, "texts that were damaged");
            }
        }
    }
    assert_eq!(run.seen, CASES);
    run.report
}

/// A run under way.
struct Run<'a> {
    subject: &'a dyn Texts,
    step: u64,
    /// Cases to pass over.
    next: u64,
    /// Cases so far, compared or passed over.
    seen: u64,
    report: Report,
}

impl Run<'_> {
    /// The next case, which is compared or passed over.
    fn case(&mut self, listed: &Listed, bytes: &[u8], name: &'static str) {
        self.seen += 1;
        if self.next > 0 {
            self.next -= 1;
            return;
        }
        self.next = self.step - 1;
        self.report.note(name, 1);
        let lines = bytes.iter().filter(|&&byte| byte == b'\n').count();
        self.compare(
            listed.place(bytes),
            &Case {
                text: bytes.to_vec(),
                nodes: lines * ROW,
                words: WORDS,
            },
        );
    }

    fn compare(&mut self, listed: Option<usize>, case: &Case) {
        let (expected, got) = (case.asked(&Plain), case.asked(self.subject));
        self.report.count(expected.number);
        let suits = match listed {
            None => got.number == MODELLED,
            Some(least) => got.number != NO_TEXT || least as u64 <= got.words[0],
        };
        if let (Some(least), NO_TEXT) = (listed, expected.number) {
            let further = least as u64 != expected.words[0];
            let name = if further {
                "places further than the list's"
            } else {
                "places that are the list's"
            };
            self.report.note(name, 1);
        }
        if got != expected || !suits {
            let said = say(case, &expected, &got);
            self.report
                .differs(|| format!("{said}\nthe list says {listed:?}"));
        }
    }
}
