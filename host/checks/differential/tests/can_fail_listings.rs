//! The comparison of listings reports a program with one fault.

#![cfg(not(no_oracle))]

use std::io;

use differential::listings::{Lists, expect, run};

/// What a fault does to an input, and to a listing.
type OfInput = fn(&[u8]) -> Vec<u8>;
type OfListing = fn(String) -> String;

/// A program that is right but for what is done to its input or its
/// listing.
struct Faulty {
    input: OfInput,
    listing: OfListing,
}

impl Lists for Faulty {
    fn listing(&self, input: &[u8]) -> io::Result<Vec<u8>> {
        let expected = expect(&(self.input)(input));
        Ok((self.listing)(expected.text).into_bytes())
    }
}

fn same_input(input: &[u8]) -> Vec<u8> {
    input.to_vec()
}

fn reported(faulty: &Faulty) -> u64 {
    let report = run(faulty, 500, 3).expect("nothing is run");
    assert_eq!(report.first.is_some(), report.differences > 0);
    report.differences
}

fn of_listing(listing: OfListing) -> u64 {
    reported(&Faulty {
        input: same_input,
        listing,
    })
}

fn of_input(input: OfInput) -> u64 {
    reported(&Faulty {
        input,
        listing: |text| text,
    })
}

/// The listing with the lines of a mark changed.
fn changed(text: &str, mark: char, change: impl Fn(&str) -> String) -> String {
    let line = |line: &str| {
        if line.starts_with(mark) {
            change(line)
        } else {
            line.to_owned()
        }
    };
    text.lines().map(|l| line(l) + "\n").collect()
}

#[test]
fn a_right_program_passes() {
    assert_eq!(of_listing(|text| text), 0);
}

#[test]
fn faults_in_the_listing_are_reported() {
    let faults: [OfListing; 8] = [
        // Nothing is listed.
        |_| "d 0 0 0\n".to_owned(),
        // No refusal is told.
        |text| match text.find("\nr ") {
            Some(at) => text[..=at].to_owned(),
            None => text,
        },
        // The last line has no end.
        |text| text.trim_end().to_owned(),
        // A blank too many.
        |text| changed(&text, 'd', |line| format!("{line} ")),
        // The place is one behind.
        |text| changed(&text, 'r', |line| format!("{line}1")),
        // The stack from the bottom.
        |text| {
            changed(&text, 'd', |line| {
                let mut words: Vec<&str> = line.split(' ').collect();
                words[4..].reverse();
                words.join(" ")
            })
        },
        // Statements first.
        |text| {
            let (n, rest): (Vec<&str>, Vec<&str>) = text.lines().partition(|l| l.starts_with('n'));
            let all: Vec<&str> = rest.into_iter().chain(n).collect();
            all.join("\n") + "\n"
        },
        // A constant's high word is lost.
        |text| text.replace(" 8191 79\n", " 0 79\n"),
    ];
    for (number, fault) in faults.into_iter().enumerate() {
        assert!(of_listing(fault) > 0, "fault {number}");
    }
}

/// The listing with other last fields of its declines with this answer.
fn with_details(text: &str, answer: &str, other: impl Fn(&str) -> String) -> String {
    changed(text, 's', |line| {
        let mut words: Vec<&str> = line.split(' ').collect();
        let other = other(words[5]);
        if (words[2], words[3]) == ("6", answer) {
            words[5] = &other;
        }
        words.join(" ")
    })
}

#[test]
fn faults_in_the_details_are_reported() {
    let faults: [OfListing; 4] = [
        // No decline has a detail.
        |text| with_details(&text, "1", |_| "0".to_owned()),
        // An overflow has one.
        |text| with_details(&text, "2", |_| "21".to_owned()),
        // A wrong kind is a wrong number of operands.
        |text| with_details(&text, "1", |detail| detail.replace("23", "22")),
        // A width that is not taken is an address that is not known.
        |text| with_details(&text, "1", |detail| detail.replace("25", "24")),
    ];
    for (number, fault) in faults.into_iter().enumerate() {
        assert!(of_listing(fault) > 0, "fault {number}");
    }
}

#[test]
fn faults_in_the_reading_are_reported() {
    let faults: [OfInput; 5] = [
        // Only 16,384 bytes are read.
        |input| input[..input.len().min(16_384)].to_vec(),
        // One byte more than 16,384 is taken.
        |input| match input.len() {
            16_385 => input[..16_384].to_vec(),
            _ => input.to_vec(),
        },
        // The end mark need not be there.
        |input| [input, &[0x87, 0x45]].concat(),
        // The last byte is lost.
        |input| input[..input.len().saturating_sub(1)].to_vec(),
        one_for_zero,
    ];
    for (number, fault) in faults.into_iter().enumerate() {
        assert!(of_input(fault) > 0, "fault {number}");
    }
}

/// `fldz` is read as `fld1`.
fn one_for_zero(input: &[u8]) -> Vec<u8> {
    let mut bytes = input.to_vec();
    for at in 0..bytes.len() {
        if bytes[at..].starts_with(b"fldz") {
            bytes[at + 3] = b'1';
        }
    }
    bytes
}

#[test]
fn the_first_difference_has_a_small_input() {
    let faulty = Faulty {
        input: one_for_zero,
        listing: |text| text,
    };
    let report = run(&faulty, 500, 3).expect("nothing is run");
    let first = report.first.expect("there is a difference");
    // A record of `fldz`, without the end mark.
    assert!(first.contains(", cut down to 16 bytes: 8749"), "{first}");
    assert!(first.contains("\nexpected n 0 6 0 0 79\n"), "{first}");
}

#[test]
fn a_lifter_that_keeps_the_stack_is_reported() {
    // The record that is declined is left out: its statement is missing,
    // and what follows still has the stack.
    let input = |input: &[u8]| {
        let mut bytes = input.to_vec();
        for at in 0..bytes.len().saturating_sub(6) {
            if bytes[at..].starts_with(b"fldl2e") {
                bytes[at..at + 6].copy_from_slice(b"fxch  ");
            }
        }
        bytes
    };
    assert!(of_input(input) > 0);
}
