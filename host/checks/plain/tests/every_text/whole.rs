//! The plain reader in the whole universe, where not every text can be
//! listed.

use plain::every_text::damaged;
use plain::smt::{Universe, numbered, text, write};
use plain::sorts::sorts;

/// A list of all kinds.
const ROWS: [[u64; 4]; 31] = [
    [1, 7, 79, 0],
    [2, 0, 64, 0],
    [3, 12, 80, 0],
    [4, 0, 0, 0],
    [5, 1, 0, 0],
    [6, 0, 1, 79],
    [7, 0, 5, 0],
    [8, 6, 0, 0],
    [9, 6, 7, 0],
    [10, 8, 4, 0],
    [11, 9, 8, 0],
    [12, 10, 0, 0],
    [13, 11, 7, 6],
    [14, 12, 78, 64],
    [15, 13, 1, 0],
    [25, 14, 0, 3904],
    [16, 15, 15, 0],
    [17, 16, 15, 1],
    [18, 16, 17, 0],
    [19, 18, 17, 1],
    [20, 18, 19, 0],
    [21, 18, 19, 0],
    [22, 19, 0, 0],
    [23, 19, 0, 0],
    [24, 23, 1, 0],
    [26, 24, 0, 0],
    [27, 24, 1, 32],
    [28, 26, 0, 3904],
    [29, 27, 1, 2869],
    [26, 28, 0, 0],
    [15, 22, 29, 0],
];

/// A row that stands where a node is not marked.
const UNMARKED: [u64; 4] = [4, 0, 0, 0];

/// What a text is gone on with, as far as each goes: first what ends
/// something, last single bytes.
const WAYS: [&str; 6] = [
    ")\n",
    ") ",
    " () (_ BitVec ",
    "#b00000000000000000000000000000000000000000000000000000000000000000000000000000000",
    "(assert (= ((_ to_fp ",
    "(define-fun n",
];
const BYTES: &[u8] = b" _(f0123456789abcdeghilmnopqrstuvwxyzBEFNPRTVZ.-=";

/// How many beginnings are ended.
const ENDED: usize = 16;

/// Whether bytes are some list's text, as the nodes that are read of them
/// say.
fn is_written(bytes: &[u8]) -> bool {
    let Ok(nodes) = numbered(bytes, &Universe::default()) else {
        return false;
    };
    let last = nodes.keys().next_back().expect("a node");
    let marks: Vec<bool> = (0..=*last).map(|node| nodes.contains_key(&node)).collect();
    let row = |node| nodes.get(&node).copied().unwrap_or(UNMARKED);
    let rows: Vec<[u64; 4]> = (0..=*last).map(row).collect();
    let sorts = sorts(&rows.concat(), rows.len()).expect("a list that passes");
    text(&rows, &sorts, &marks).as_bytes() == bytes
}

/// A text that these bytes begin, by what the reader says of more of them.
fn ended(begun: &[u8]) -> Vec<u8> {
    let ways = WAYS.iter().map(|way| way.as_bytes());
    let ways: Vec<&[u8]> = ways.chain(BYTES.chunks(1)).collect();
    let mut bytes = begun.to_vec();
    while numbered(&bytes, &Universe::default()).is_err() {
        let longer = ways.iter().find_map(|way| further(&bytes, way));
        let text = String::from_utf8_lossy(&bytes);
        bytes = longer.unwrap_or_else(|| panic!("nothing goes on with\n{text}"));
    }
    bytes
}

/// The bytes with as much of some more as still begins a text.
fn further(bytes: &[u8], more: &[u8]) -> Option<Vec<u8>> {
    let mut longer = [bytes, more].concat();
    if let Err(place) = numbered(&longer, &Universe::default()) {
        longer.truncate(place);
    }
    (longer.len() > bytes.len()).then_some(longer)
}

#[test]
fn what_is_taken_is_written_and_what_is_begun_can_be_ended() {
    let text = write(&ROWS.concat(), ROWS.len(), 30, usize::MAX).expect("it is written");
    let text = text.as_bytes();
    assert!(is_written(text));
    let (mut taken, mut begun) = (0, Vec::new());
    for bytes in damaged(text, text).into_iter().step_by(3) {
        match numbered(&bytes, &Universe::default()) {
            Ok(_) => {
                assert!(is_written(&bytes), "{}", String::from_utf8_lossy(&bytes));
                taken += 1;
            }
            // The text itself goes on with its own beginnings.
            Err(place) if !text.starts_with(&bytes[..place]) => begun.push(bytes[..place].to_vec()),
            Err(_) => {}
        }
    }
    println!("{taken} taken, {} begun otherwise", begun.len());
    assert!(taken > 500 && begun.len() > 200);
    for begun in begun.iter().step_by(begun.len() / ENDED) {
        assert!(
            is_written(&ended(begun)),
            "{}",
            String::from_utf8_lossy(begun)
        );
    }
}
