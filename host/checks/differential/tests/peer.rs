//! The peer that is written in C answers as the manual says and as the
//! library does, and a peer with a fault is reported.

use differential::lists::works;
use differential::report::Report;
use differential::subject::{Formulas, Library, Peer};
use differential::{checks, fewer, stored, stored_formulas, values};
use plain::values::VALUE;

fn equal(report: &Report) {
    println!("{report}");
    assert!(report.is_equal(), "{report}");
}

#[test]
fn the_peer_answers_as_is_stored() {
    let file = |name| stored::file(name).expect("it is stored");
    equal(&stored_formulas::checks(&Peer, &file("checks.bin")));
    equal(&stored_formulas::values(&Peer, &file("values.bin")));
}

#[test]
fn the_peer_checks_as_the_manual_says() {
    assert!(sleetgate_sys::at_hand(), "{}", sleetgate_sys::MISSING);
    equal(&checks::run(&Peer, fewer(100_000), 4));
}

#[test]
fn the_peer_evaluates_as_the_library_and_refuses_as_the_manual_says() {
    assert!(sleetgate_sys::at_hand(), "{}", sleetgate_sys::MISSING);
    let report = values::beside(&Peer, &Library, fewer(20_000), 4);
    equal(&report);
    for number in [0, 8, 9, 10] {
        assert!(report.expecting(number) > fewer(300), "{report}");
    }
}

#[test]
fn the_peer_has_the_library_s_values_on_the_ready_made_lists() {
    assert!(sleetgate_sys::at_hand(), "{}", sleetgate_sys::MISSING);
    let mut report = Report::default();
    for ready in works().iter().flat_map(|work| work.lists()) {
        let mut out = [1];
        let number = Peer.check(&ready.list.nodes, ready.list.len(), &mut out);
        assert_eq!((number, out), (0, [0]));
        let case = values::Case::new(&ready.list, ready.given);
        values::alike(&Peer, &Library, &case, &mut report);
    }
    equal(&report);
}

/// A change of the answer, the words and the values of a call.
type Fault = fn(u32, &mut [u64], &mut [u64]) -> u32;

/// The peer, but for a fault.
struct Faulty(Fault);

impl Formulas for Faulty {
    fn check(&self, nodes: &[u64], count: usize, out: &mut [u64]) -> u32 {
        let number = Peer.check(nodes, count, out);
        self.0(number, out, &mut [])
    }

    fn evaluate(
        &self,
        nodes: &[u64],
        count: usize,
        given: &[u64],
        column: &mut [u64],
        out: &mut [u64],
    ) -> u32 {
        let number = Peer.evaluate(nodes, count, given, column, out);
        let written = column.len().min(count.saturating_mul(VALUE));
        self.0(number, out, &mut column[..written])
    }
}

fn reported(report: &Report, call: &str) {
    let first = report.first.as_deref().expect("a difference is reported");
    assert!(first.contains(call), "{first}");
}

#[test]
fn a_peer_with_a_fault_is_reported() {
    assert!(sleetgate_sys::at_hand(), "{}", sleetgate_sys::MISSING);
    let faults: [Fault; 3] = [
        // The last value has another bit.
        |number, _, column| {
            if let (0, Some(word)) = (number, column.last_mut()) {
                *word ^= 1 << 15;
            }
            number
        },
        // Another node is named.
        |number, out, _| {
            if let (9, Some(node)) = (number, out.first_mut()) {
                *node += 1;
            }
            number
        },
        // A refused call writes.
        |number, _, column| {
            if number != 0 {
                column.fill(0);
            }
            number
        },
    ];
    for fault in faults {
        let report = values::beside(&Faulty(fault), &Library, fewer(4_000), 5);
        reported(&report, "evaluation of ");
    }
    let fault = Faulty(|number, out, _| {
        if let (8, Some(node)) = (number, out.first_mut()) {
            *node += 1;
        }
        number
    });
    reported(&checks::run(&fault, fewer(4_000), 5), "check of ");
}
