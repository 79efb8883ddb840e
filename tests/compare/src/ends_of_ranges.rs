//! Circuits at the ends of the ranges: slacks, delays, times.

use circuits::{worked, Netlist};

use crate::checker::Checker;
use crate::document::slacks;
use crate::refusals::{refused, star};
use crate::tries;

const TIME: i32 = 100_000_000;

pub fn check(checker: &mut Checker) {
    checker.group("slacks of -1, 0, -267,042,305 and 200,000,000", slack_range);
    checker.group("the greatest share and increment", greatest_budget);
    checker.group("base delay 65,535 taken, 65,536 refused", base_delay);
    checker.group("times at both ends", times);
    checker.group("chain of 1,023 delays with slack for each", long_chain);
    checker.group("as many rounds as non-inputs", most_rounds);
}

/// An input, inner components and an output in one row.
fn chain(components: usize, base: u32, arrival: i32, required: i32) -> Netlist {
    let mut netlist = Netlist::default();
    netlist.input(arrival);
    for _ in 2..components {
        netlist.inner(base);
    }
    netlist.output(base, required);
    for to in 1..components as u16 {
        netlist.wire(to - 1, to);
    }
    netlist
}

fn slack_range(checker: &mut Checker) {
    slacks(checker, &worked::b(9), &[-1; 3]);
    slacks(checker, &worked::b(10), &[0; 3]);
    slacks(checker, &worked::b(11), &[1; 3]);
    let least = chain(1_024, 65_535, TIME, -TIME);
    slacks(checker, &least, &[-267_042_305; 1_024]);
    let greatest = chain(2, 0, -TIME, TIME);
    slacks(checker, &greatest, &[200_000_000; 2]);
    slacks(
        checker,
        &chain(1_024, 0, -TIME, TIME),
        &[200_000_000; 1_024],
    );
    let late = checker.budget(0, &least.file(), 16_384);
    checker.expect("late at the end", late.answer, 8 << 32 | 1_023);
}

fn greatest_budget(checker: &mut Checker) {
    let netlist = chain(2, 0, -TIME, TIME);
    let file = netlist.file();
    let increment = 200_000_000_u32.to_be_bytes();
    for (mode, share, rounds) in [(0, 0, 1), (1, 200_000_000_u32, 0)] {
        let outcome = checker.budget(mode, &file, 23);
        checker.expect("bytes", outcome.answer, 23);
        checker.expect(
            "share",
            outcome.contents[4..8].to_vec(),
            share.to_be_bytes().to_vec(),
        );
        checker.expect("rounds", outcome.contents[8..10].to_vec(), vec![0, rounds]);
        checker.expect(
            "increment",
            outcome.contents[19..].to_vec(),
            increment.to_vec(),
        );
        let bounds = checker.read_back(&file, &outcome.contents, 8);
        checker.expect("bounds", bounds.contents, [[0; 4], increment].concat());
    }
}

fn base_delay(checker: &mut Checker) {
    tries::circuit(checker, &chain(3, 65_535, 0, TIME));
    slacks(checker, &chain(3, 65_535, 0, 131_070), &[0; 3]);
    refused(checker, "65,536", &chain(3, 65_536, 0, TIME).file(), 5, 12);
}

fn times(checker: &mut Checker) {
    for (arrival, required) in [(TIME, TIME), (-TIME, -TIME), (-TIME, TIME), (TIME, -TIME)] {
        for base in [0, 1, 65_535] {
            tries::circuit(checker, &chain(4, base, arrival, required));
        }
    }
    refused(
        checker,
        "arrival too late",
        &chain(2, 0, TIME + 1, 0).file(),
        5,
        0,
    );
    refused(
        checker,
        "arrival too early",
        &chain(2, 0, -TIME - 1, 0).file(),
        5,
        0,
    );
    refused(
        checker,
        "required too late",
        &chain(2, 0, 0, TIME + 1).file(),
        5,
        12,
    );
    refused(
        checker,
        "required too early",
        &chain(2, 0, 0, -TIME - 1).file(),
        5,
        12,
    );
}

/// Slacks around a multiple of the number of components, where the division rounds.
fn long_chain(checker: &mut Checker) {
    for required in [0, 1, 1_022, 1_023, 1_024, 2_045, 2_046, 2_047, TIME] {
        tries::circuit(checker, &chain(1_024, 0, 0, required));
    }
    tries::circuit(checker, &chain(1_024, 65_535, -TIME, TIME));
}

/// Each output has a slack of its own, so that each takes a round.
fn most_rounds(checker: &mut Checker) {
    let netlist = star(1_023);
    tries::circuit(checker, &netlist);
    let outcome = checker.budget(0, &netlist.file(), 10 + 13 * 1_023);
    checker.expect(
        "1,023 rounds",
        outcome.contents[8..10].to_vec(),
        vec![3, 255],
    );
    let last = outcome.contents[10 + 13 * 1_022..].to_vec();
    checker.expect(
        "last bound",
        last,
        vec![17, 0, 10, 3, 255, 0, 0, 0, 0, 0, 0, 3, 255],
    );
}
