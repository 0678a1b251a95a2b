//! The program `x87lift`, run as a process: on the stored inputs, and
//! against the plain reader and the Rust in a smaller fixed part of the
//! full run. Where the program is not built, each test says so.

use std::collections::BTreeSet;
use std::fs;
use std::path::{Path, PathBuf};

use differential::programs::of_length;
use differential::{NO_ORACLE, fewer, left_out, listings, oracle};
use program::{MISSING, Program};

/// A stored input, and the listing that it has.
struct Case {
    name: String,
    input: Vec<u8>,
    listing: String,
}

impl Case {
    /// Whether a listing is this case's own, byte for byte.
    fn is(&self, listing: &[u8]) -> bool {
        listing == self.listing.as_bytes()
    }
}

fn folder() -> PathBuf {
    Path::new(env!("CARGO_MANIFEST_DIR")).join("../x87lift-cases")
}

fn cases() -> Vec<Case> {
    let entries = fs::read_dir(folder()).expect("the folder is there");
    let paths = entries.map(|entry| entry.expect("it can be read").path());
    let inputs = paths.filter(|path| path.extension().is_some_and(|e| e == "hex"));
    let text = |path: &Path| fs::read_to_string(path).expect("the file is there");
    let mut cases: Vec<Case> = inputs
        .map(|path| Case {
            name: path
                .file_stem()
                .unwrap_or_default()
                .to_string_lossy()
                .into(),
            input: bytes(&text(&path)),
            listing: text(&path.with_extension("out")),
        })
        .collect();
    cases.sort_by(|a, b| a.name.cmp(&b.name));
    cases
}

/// The bytes of a stored input.
fn bytes(text: &str) -> Vec<u8> {
    let mut bytes = Vec::new();
    for line in text.lines() {
        let line = line.split('#').next().unwrap_or_default();
        let (times, line) = line.split_once('*').unwrap_or(("1", line));
        let times = times.trim().parse().expect("a number of times");
        let words = line.split_whitespace();
        let record: Vec<u8> = words
            .map(|word| u8::from_str_radix(word, 16).expect("a byte in hexadecimal"))
            .collect();
        bytes.extend(record.repeat(times));
    }
    bytes
}

/// The listing of exchanges alone: two inputs, and nothing refused.
fn exchanges(input: &[u8]) -> String {
    let count = input.windows(4).filter(|w| w == b"fxch").count();
    let (top, below) = if count % 2 == 0 { (0, 1) } else { (1, 0) };
    format!("n 0 1 0 79 0\nn 1 1 1 79 0\nd 2 2 0 {top} {below}\n")
}

#[test]
fn stored_inputs_have_their_listings() {
    let Some(program) = Program::at_hand() else {
        left_out(MISSING);
        return;
    };
    for case in cases() {
        let got = program.listing(&case.input).expect("the program runs");
        assert!(
            case.is(&got),
            "{}: got\n{}",
            case.name,
            String::from_utf8_lossy(&got)
        );
    }
}

#[cfg(not(no_oracle))]
#[test]
fn stored_listings_are_those_of_the_rust() {
    for case in cases() {
        let expected = listings::expect(&case.input);
        assert!(case.is(expected.text.as_bytes()), "{}", case.name);
        assert_eq!(expected.tree, None, "{}", case.name);
    }
}

#[test]
fn stored_inputs_end_in_every_way() {
    let ends = |case: &Case| {
        let last = case.listing.lines().last().unwrap_or_default().to_owned();
        last.strip_prefix("r ")
            .and_then(|rest| rest.split(' ').next()?.parse().ok())
            .unwrap_or(0)
    };
    let mut numbers: Vec<u32> = cases().iter().map(ends).collect();
    numbers.sort_unstable();
    numbers.dedup();
    assert_eq!(numbers, [0, 3, 4, 6, 7, 11, 12]);
}

#[test]
fn stored_listings_have_every_detail() {
    let cases = cases();
    let lines = cases.iter().flat_map(|case| case.listing.lines());
    let rows = lines.filter_map(|line| line.strip_prefix("s "));
    let rows = rows.map(|row| row.split(' ').map(|n| n.parse().expect("a number")));
    let rows: Vec<Vec<u64>> = rows.map(Iterator::collect).collect();
    let of_answer = |answer: u64| {
        let declines = rows.iter().filter(|row| row[1..3] == [6, answer]);
        declines.map(|row| row[4]).collect::<BTreeSet<u64>>()
    };
    assert_eq!(of_answer(1), plain::DETAILS.map(u64::from).into());
    assert_eq!(of_answer(2), [0].into());
}

#[test]
fn a_changed_listing_is_another() {
    for mut case in cases() {
        let listing = case.listing.clone();
        for place in 0..listing.len().min(200) {
            let mut changed = listing.clone().into_bytes();
            changed[place] = changed[place].wrapping_add(1);
            assert!(!case.is(&changed), "{} at {place}", case.name);
        }
        assert!(!case.is(&listing.as_bytes()[1..]), "{}", case.name);
        case.listing.push('\n');
        assert!(!case.is(listing.as_bytes()), "{}", case.name);
    }
}

#[test]
fn up_to_16384_bytes_are_taken() {
    let Some(program) = Program::at_hand() else {
        left_out(MISSING);
        return;
    };
    let listing = |input: &[u8]| {
        let got = program.listing(input).expect("the program runs");
        String::from_utf8(got).expect("a listing is text")
    };
    for length in [16_383, 16_384] {
        let input = of_length(length);
        assert_eq!(listing(&input), exchanges(&input));
    }
    for length in [16_385, 16_386, 100_000] {
        assert_eq!(listing(&of_length(length)), "d 0 0 0\nr 13 0\n");
    }
}

#[test]
fn the_program_lists_as_the_manual_and_the_rust() {
    let Some(program) = Program::at_hand() else {
        left_out(MISSING);
        return;
    };
    if !oracle::at_hand() {
        left_out(NO_ORACLE);
        return;
    }
    let report = listings::run(&program, fewer(3_000), 2).expect("the program runs");
    println!("{report}");
    assert!(report.is_equal(), "{report}");
    for number in [0, 3, 4, 6, 7, 11, 12, 13] {
        assert!(report.expecting(number) > fewer(20), "{number}: {report}");
    }
    assert!(
        report.details.iter().all(|&count| count > fewer(20)),
        "{report}"
    );
}

/// With an argument the program reads nothing: it says its version, which
/// is that of the tools, or what it does.
#[test]
fn the_program_says_what_it_is() {
    let Some(program) = Program::at_hand() else {
        left_out(MISSING);
        return;
    };
    let said = |words: &[&str]| {
        let said = program.said(words).expect("the program runs");
        String::from_utf8(said).expect("it is text")
    };
    let version = format!("x87lift {}\n", env!("CARGO_PKG_VERSION"));
    assert_eq!(said(&["--version"]), version);
    for words in [
        &["--help"][..],
        &[""],
        &["--versio"],
        &["a-long-argument-of-24-byte"],
    ] {
        let help = said(words);
        assert!(
            help.starts_with("usage: x87lift < RECORDS > LISTING\n"),
            "{help}"
        );
        for limit in ["16,384", "1,024", "256"] {
            assert!(help.contains(limit), "{limit}");
        }
    }
    // Without one it takes what it reads for records.
    assert_eq!(said(&[]), "d 0 0 0\nr 12 0\n");
}

/// Every listing can be read by a person: no line of it is refused, and
/// none of the formulas runs away.
#[cfg(not(no_oracle))]
#[test]
fn listings_are_shown() {
    let mut rng = differential::rng::Rng::new(4);
    let mut longest = 0;
    for (_, input) in differential::programs::batch(&mut rng) {
        let listing = listings::expect(&input).text;
        let text = match x87show::show(&listing, None) {
            Ok(shown) => shown.text,
            // The listing of no input at all: the step before failed.
            Err(_) if input.is_empty() => continue,
            Err(wrong) => panic!("{wrong}\n{listing}"),
        };
        longest = longest.max(text.lines().map(str::len).max().unwrap_or(0));
    }
    assert!(longest < 400, "{longest}");
}
