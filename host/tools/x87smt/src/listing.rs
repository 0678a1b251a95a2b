//! A text that is read.

use sleetgate::{Node, Refusal, smt_lib};

use crate::Wrong;

/// How much of a line is shown behind the place where it stops.
const BEHIND: usize = 40;

/// The nodes of a text, one line each, as `x87lift` lists them. The root of a
/// text that [`formula`](crate::formula) gives is the last.
///
/// # Errors
/// Where the bytes stop being a text, with the name that they go by.
pub fn listing(name: &str, text: &[u8]) -> Result<String, Wrong> {
    if !sleetgate_sys::at_hand() {
        return Err(Wrong::Library);
    }
    match smt_lib::read(text) {
        Ok(nodes) => Ok(nodes.into_iter().enumerate().map(line).collect()),
        Err(Refusal::Syntax { place }) => Err(stop(name, text, place)),
        Err(refusal) => Err(Wrong::Text { refusal, nodes: 0 }),
    }
}

fn line((number, node): (usize, Node)) -> String {
    let [kind, a, b, c] = node.row();
    format!("n {number} {kind} {a} {b} {c}\n")
}

/// The place as a person looks for it: the line and the byte in it, from 1
/// on.
fn stop(name: &str, text: &[u8], place: usize) -> Wrong {
    let (before, behind) = text.split_at(place);
    let lines = before.split(|&byte| byte == b'\n');
    let (count, begun) = lines.fold((0, &[][..]), |(count, _), line| (count + 1, line));
    let rest = behind
        .iter()
        .take_while(|&&byte| byte != b'\n')
        .take(BEHIND);
    let shown = begun.iter().chain(rest).map(|&byte| match byte {
        b' '..=b'~' => char::from(byte),
        _ => '?',
    });
    Wrong::Syntax {
        name: name.to_owned(),
        line: count,
        column: begun.len() + 1,
        shown: shown.collect(),
        ends: behind.is_empty(),
    }
}
