//! The plain reader against every text of small universes: what it says of
//! damaged texts, and how far they begin one, judged by the list of all.
//! Beside that, in the whole universe, what it takes is some list's text,
//! and what it says begins a text can be ended as one.

#[path = "every_text/whole.rs"]
mod whole;

use plain::every_text::{Texts, damaged, universes};
use plain::smt::{Universe, numbered};

/// Texts of each universe that are damaged.
const SAMPLE: usize = 16;

/// How many bytes begin a text, or nothing where they are one.
type Reader = fn(&[u8], &Universe) -> Option<usize>;

fn plain_reader(bytes: &[u8], universe: &Universe) -> Option<usize> {
    numbered(bytes, universe).err()
}

/// What a comparison counts, and the first difference.
#[derive(Default)]
struct Compared {
    cases: usize,
    differences: usize,
    first: Option<String>,
}

impl Compared {
    fn compare(&mut self, bytes: &[u8], reader: Option<usize>, list: Option<usize>) {
        self.cases += 1;
        if reader != list {
            self.differences += 1;
            self.first.get_or_insert_with(|| {
                let text = String::from_utf8_lossy(bytes);
                format!("the reader says {reader:?}, the list {list:?} of\n{text}")
            });
        }
    }
}

/// A reader against the texts of a universe, damaged.
fn compared(reader: Reader, universe: &Universe, texts: &Texts, sample: usize) -> Compared {
    let mut compared = Compared::default();
    let chosen = texts.sample(sample);
    for (text, other) in chosen.iter().zip(chosen.iter().rev()) {
        for bytes in damaged(text.as_bytes(), other.as_bytes()) {
            compared.compare(&bytes, reader(&bytes, universe), texts.place(&bytes));
        }
    }
    compared
}

#[test]
fn places_are_those_of_the_list_of_every_text() {
    for (name, universe) in universes() {
        let texts = Texts::of(&universe);
        for text in &texts.0 {
            assert_eq!(plain_reader(text.as_bytes(), &universe), None, "{text}");
        }
        let compared = compared(plain_reader, &universe, &texts, SAMPLE);
        println!(
            "{name}: {} texts, {} damaged",
            texts.0.len(),
            compared.cases
        );
        if let Some(first) = compared.first {
            panic!("{name}: {} differences, {first}", compared.differences);
        }
    }
}

/// The place one further.
fn further(bytes: &[u8], universe: &Universe) -> Option<usize> {
    plain_reader(bytes, universe).map(|place| place + 1)
}

/// A leading zero in a node's number is passed over.
fn leading_zero(bytes: &[u8], universe: &Universe) -> Option<usize> {
    let zero = |at: &usize| bytes[*at] == b'x' && bytes[at + 1] == b'0';
    let leading =
        (0..bytes.len().saturating_sub(2)).find(|at| zero(at) && bytes[at + 2].is_ascii_digit());
    let Some(at) = leading else {
        return plain_reader(bytes, universe);
    };
    let less = [&bytes[..=at], &bytes[at + 2..]].concat();
    plain_reader(&less, universe).map(|place| place + usize::from(place > at))
}

/// A text may end behind any line.
fn ends_anywhere(bytes: &[u8], universe: &Universe) -> Option<usize> {
    let place = plain_reader(bytes, universe);
    place.filter(|&place| place != bytes.len() || !bytes.ends_with(b"\n"))
}

/// The place where the word begins.
fn at_words(bytes: &[u8], universe: &Universe) -> Option<usize> {
    let place = plain_reader(bytes, universe)?;
    let word = |byte: &u8| b" (_".contains(byte);
    Some(bytes[..place].iter().rposition(word).map_or(0, |at| at + 1))
}

/// One more node is there than there can be.
fn one_more(bytes: &[u8], universe: &Universe) -> Option<usize> {
    let nodes = universe.nodes.start..universe.nodes.end + 1;
    let universe = universe.clone();
    plain_reader(bytes, &Universe { nodes, ..universe })
}

/// A node stands below the first that there can be.
fn one_earlier(bytes: &[u8], universe: &Universe) -> Option<usize> {
    let nodes = universe.nodes.start - 1..universe.nodes.end;
    let universe = universe.clone();
    plain_reader(bytes, &Universe { nodes, ..universe })
}

#[test]
fn a_wrong_reader_is_seen() {
    let universes = universes();
    let find = |wanted: &str| {
        let named = universes.iter().find(|(name, _)| *name == wanted);
        &named.expect("it is there").1
    };
    let wrong: [(&str, Reader); 6] = [
        ("owed floats", further),
        ("two digits", leading_zero),
        ("owed floats", ends_anywhere),
        ("many kinds", at_words),
        ("formats", one_more),
        ("two digits", one_earlier),
    ];
    for (number, (name, reader)) in wrong.into_iter().enumerate() {
        let texts = Texts::of(find(name));
        let compared = compared(reader, find(name), &texts, 4);
        assert!(compared.differences > 0, "reader {number}");
    }
}
