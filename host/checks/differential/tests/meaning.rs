//! The readable text of a listing means what its nodes mean: both are
//! evaluated, the nodes bit by bit and the text as it reads, on numbers
//! that are 64-bit floats, and with the arithmetic of 64-bit floats in the
//! place of the stack's own.

#[path = "meaning/floats.rs"]
mod floats;
#[path = "meaning/nodes.rs"]
mod nodes;
#[path = "meaning/text.rs"]
mod text;

use std::fmt::Write;

use differential::instructions::Grid;
use differential::rng::Rng;
use differential::sequences::Profile;
use plain::state::{DEPTH, INPUTS, NODES, ROW, STATE, STATEMENTS, TEMPORARIES};
use sleetgate::{Nodes, Statement, Statements};
use x87show::show;

use floats::{decoded, same};
use nodes::Column;
use text::Text;

/// Rows that the lists are lent, as `x87lift` lends them.
const NODE_ROOM: usize = 1_024;
const STATEMENT_ROOM: usize = 256;

/// A lift, and its listing.
struct Lifted {
    state: [u64; STATE],
    nodes: Vec<u64>,
    statements: Vec<u64>,
}

impl Lifted {
    /// The lift of a sequence, as far as the lists have room.
    fn random(grid: &Grid, rng: &mut Rng) -> Self {
        let profile = if rng.one_in(2) {
            Profile::plain(rng.between(1, 40))
        } else {
            Profile::random(rng)
        };
        let mut lift = Self {
            state: [0; STATE],
            nodes: vec![0; NODE_ROOM * ROW],
            statements: vec![0; STATEMENT_ROOM * ROW],
        };
        for _ in 0..profile.length.min(60) {
            let depth = usize::try_from(lift.state[DEPTH]).expect("at most 8");
            let flat = profile.next(grid, rng, depth).to_flat();
            let lists = (&mut lift.nodes, &mut lift.statements);
            let detail = &mut [0; sleetgate_sys::DETAIL];
            sleetgate_sys::lift(&flat, &mut lift.state, lists.0, lists.1, detail);
        }
        lift
    }

    fn rows(list: &[u64], count: u64) -> &[u64] {
        &list[..usize::try_from(count).expect("in memory") * ROW]
    }

    fn nodes(&self) -> Nodes<'_> {
        Nodes::new(Self::rows(&self.nodes, self.state[NODES]))
    }

    fn statements(&self) -> Statements<'_> {
        Statements::new(Self::rows(&self.statements, self.state[STATEMENTS]))
    }

    fn stack(&self) -> &[u64] {
        &self.state[..usize::try_from(self.state[DEPTH]).expect("at most 8")]
    }

    fn listing(&self) -> String {
        let mut text = String::new();
        let lists = [
            ('n', self.nodes().words()),
            ('s', self.statements().words()),
        ];
        for (mark, words) in lists {
            for (number, row) in words.chunks(ROW).enumerate() {
                let fields: Vec<String> = row.iter().map(u64::to_string).collect();
                let _ = writeln!(text, "{mark} {number} {}", fields.join(" "));
            }
        }
        let counts = [DEPTH, INPUTS, TEMPORARIES].map(|word| self.state[word]);
        let words = counts.iter().chain(self.stack());
        let words: Vec<String> = words.map(u64::to_string).collect();
        text + "d " + &words.join(" ") + "\n"
    }

    /// The first thing that the text and the nodes do not agree on.
    fn difference(&self, shown: &str, rng: &mut Rng) -> Option<String> {
        let column = Column::random(self.nodes(), rng);
        let mut text = Text::new(shown, &column);
        for statement in self.statements().iter() {
            let (node, told) = match statement {
                Statement::Load { .. } | Statement::Unsupported { .. } => continue,
                Statement::Store { address, node, .. } => {
                    (node, text.next(&format!("[address {address}] := ")))
                }
                Statement::Status { node } => (node, text.next("fsw := ")),
                Statement::Ax { node } => (node, text.next("ax := ")),
                Statement::Flag { flag, node } => (node, text.next(&format!("{flag:?} := "))),
            };
            let (bits, width) = column.bits(node);
            let equal = match told.stored() {
                Some((number, own)) => own == width && same(decoded(bits, width), number),
                None => told.bits(width) == bits,
            };
            if !equal {
                return Some(format!("{statement:?} is {bits:x}, told {told:?}"));
            }
        }
        for (place, &node) in self.stack().iter().enumerate() {
            let told = text.next(&format!("st({place}) = ")).number();
            let (bits, width) = column.bits(node);
            if !same(decoded(bits, width), told) {
                return Some(format!("place {place} is {bits:x}, told {told}"));
            }
        }
        None
    }
}

/// How many of some lifts differ, where their text is changed so.
fn different(change: fn(String) -> String) -> usize {
    let (grid, mut rng) = (Grid::default(), Rng::new(6));
    let mut differences = 0;
    for _ in 0..600 {
        let lifted = Lifted::random(&grid, &mut rng);
        let listing = lifted.listing();
        let shown = show(&listing, None).expect("it is a listing");
        let shown = change(shown.text);
        if let Some(why) = lifted.difference(&shown, &mut rng) {
            if differences == 0 {
                println!("{why}\n{shown}\n{listing}");
            }
            differences += 1;
        }
    }
    differences
}

#[test]
fn the_text_means_what_the_nodes_mean() {
    assert!(sleetgate_sys::at_hand(), "{}", sleetgate_sys::MISSING);
    assert_eq!(different(|text| text), 0);
}

#[test]
fn a_text_with_a_fault_means_something_else() {
    assert!(sleetgate_sys::at_hand(), "{}", sleetgate_sys::MISSING);
    let faults: [fn(String) -> String; 8] = [
        |text| text.replace(" - ", " + "),
        |text| text.replace("f32(", "f64("),
        |text| text.replace("trunc(", "round("),
        |text| text.replace("abs(", "sqrt("),
        |text| text.replace("= -", "= "),
        |text| text.replace("C0:", "C2:"),
        |text| text.replace(" < ", " == "),
        |text| text.replace("!CF", "CF"),
    ];
    for (number, fault) in faults.into_iter().enumerate() {
        assert!(different(fault) > 0, "fault {number}");
    }
}
