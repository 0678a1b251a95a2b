//! Listings and notes that are damaged: they are refused, or shown as what
//! they say; nothing is worse than a refusal.

use std::fs;
use std::io::Write as _;

use notes::Notes;
use program::{MISSING, Program};
use shown::{CASES, options};
use x87rec::translate;
use x87show::show;

/// Random numbers, from a seed.
struct Random(u64);

impl Random {
    fn next(&mut self) -> u64 {
        self.0 ^= self.0 << 13;
        self.0 ^= self.0 >> 7;
        self.0 ^= self.0 << 17;
        self.0
    }

    fn below(&mut self, end: usize) -> usize {
        usize::try_from(self.next() % end.max(1) as u64).expect("it is below a usize")
    }
}

/// Words that are put into lines.
const WORDS: [&str; 16] = [
    "",
    "0",
    "1",
    "2",
    "79",
    "80",
    "1024",
    "18446744073709551615",
    "99999999999999999999",
    "-1",
    "n",
    "s",
    "record",
    "87",
    "ß",
    "end",
];

/// Delete, double, swap or replace some of the pieces of a text.
fn changed(pieces: &mut Vec<String>, random: &mut Random) {
    let (at, other) = (random.below(pieces.len()), random.below(pieces.len()));
    if pieces.is_empty() {
        return;
    }
    match random.below(5) {
        0 => drop(pieces.remove(at)),
        1 => pieces.insert(other, pieces[at].clone()),
        2 => pieces.swap(at, other),
        3 => WORDS[random.below(WORDS.len())].clone_into(&mut pieces[at]),
        _ => pieces.truncate(at),
    }
}

/// A text with a change of its lines, or of the words of a line.
fn damaged(text: &str, random: &mut Random) -> String {
    let mut lines: Vec<String> = text.lines().map(str::to_owned).collect();
    let at = random.below(lines.len());
    match lines.get_mut(at) {
        Some(line) if random.below(3) > 0 => {
            let mut words: Vec<String> = line.split(' ').map(str::to_owned).collect();
            changed(&mut words, random);
            *line = words.join(" ");
        }
        _ => changed(&mut lines, random),
    }
    lines.join("\n") + "\n"
}

/// The listings and notes of the cases.
fn runs(program: &Program) -> Vec<(String, String)> {
    let run = |case: &shown::Case| {
        let text = case.stored().with_file_name(case.text);
        let text = fs::read_to_string(text).expect("the text is there");
        let options = options(case.words).expect("they are right");
        let translated = translate(&text, &options).expect("it is read");
        let listing = program.listing(&translated.bytes()).expect("it runs");
        let listing = String::from_utf8(listing).expect("a listing is text");
        (listing, translated.notes.to_string())
    };
    CASES.iter().map(run).collect()
}

/// With notes, a listing is shown only if it is that of their records.
#[test]
fn damaged_listings_are_refused_or_mean_the_same() {
    let Some(program) = Program::at_hand() else {
        // A line that cannot be written is no reason to fail.
        let _ = writeln!(std::io::stderr(), "left out: {MISSING}");
        return;
    };
    let mut random = Random(0x5eed_0004);
    let runs = runs(&program);
    let mut refused = 0;
    for round in 0..1_500 {
        let (listing, notes) = &runs[round % runs.len()];
        let notes: Notes = notes.parse().expect("they are notes");
        let whole = show(listing, Some(&notes)).expect("it is shown");
        let other = damaged(listing, &mut random);
        let _ = show(&other, None);
        match show(&other, Some(&notes)) {
            Ok(shown) => assert_eq!(shown, whole, "{other}"),
            Err(_) => refused += 1,
        }
    }
    assert!(refused > 1_000, "{refused}");
}

/// Notes with other words are shown with these; notes with other records
/// are refused.
#[test]
fn damaged_notes_are_refused_or_shown() {
    let Some(program) = Program::at_hand() else {
        let _ = writeln!(std::io::stderr(), "left out: {MISSING}");
        return;
    };
    let mut random = Random(0x5eed_0005);
    let runs = runs(&program);
    let mut counts = [0, 0];
    for round in 0..1_500 {
        let (listing, notes) = &runs[round % runs.len()];
        let other = damaged(notes, &mut random);
        let Ok(other) = other.parse::<Notes>() else {
            counts[0] += 1;
            continue;
        };
        counts[usize::from(show(listing, Some(&other)).is_ok())] += 1;
    }
    assert!(counts.iter().all(|&count| count > 200), "{counts:?}");
}

/// The listing of one run is not shown with the notes of another.
#[test]
fn no_run_is_shown_with_the_notes_of_another() {
    let Some(program) = Program::at_hand() else {
        let _ = writeln!(std::io::stderr(), "left out: {MISSING}");
        return;
    };
    let runs = runs(&program);
    let pairs = runs.iter().flat_map(|a| runs.iter().map(move |b| (a, b)));
    for ((listing, notes), (other, _)) in pairs.filter(|(a, b)| a.0 != b.0) {
        let notes: Notes = notes.parse().expect("they are notes");
        assert!(show(other, Some(&notes)).is_err(), "{listing} {other}");
    }
}
