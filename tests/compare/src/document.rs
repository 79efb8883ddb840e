//! The cases worked by hand, through the calls. The expected values are written out.

use circuits::{worked, Netlist};

use crate::checker::Checker;

pub fn check(checker: &mut Checker) {
    checker.group(
        "circuit A: length, slacks, plain, even (P1 to P3)",
        circuit_a,
    );
    checker.group("circuit B with required time 9 (P4)", circuit_b_late);
    checker.group(
        "circuit B with required times 10 to 13 (P5 to P8)",
        circuit_b,
    );
    checker.group("circuit C, plain and even (P9, P10)", circuit_c);
    checker.group(
        "circuit A: bytes of the results, room of 36 and 35",
        bytes_of_a,
    );
}

/// A budget as the cases give it.
struct Wanted<'a> {
    mode: u32,
    share: u32,
    rounds: u32,
    increments: &'a [u32],
}

fn wanted(mode: u32, share: u32, rounds: u32, increments: &[u32]) -> Wanted<'_> {
    Wanted {
        mode,
        share,
        rounds,
        increments,
    }
}

fn circuit_a(checker: &mut Checker) {
    let a = worked::a();
    checker.expect("length of the netlist", a.file().len(), 69);
    slacks(checker, &a, &[15, 13, 15, 13]);
    budget(checker, &a, wanted(0, 0, 2, &[2, 13]));
    budget(checker, &a, wanted(1, 7, 1, &[7, 8]));
    // With the even bounds as base delays, input 1 keeps slack 5 and no other has any.
    let mut after = worked::a();
    after.parts[2].base = 10;
    after.parts[3].base = 10;
    slacks(checker, &after, &[0, 5, 0, 0]);
}

fn circuit_b_late(checker: &mut Checker) {
    let b = worked::b(9);
    slacks(checker, &b, &[-1, -1, -1]);
    for mode in [0, 1] {
        let outcome = checker.budget(mode, &b.file(), 36);
        checker.expect("LATE at 2", outcome.answer, 8 << 32 | 2);
    }
}

fn circuit_b(checker: &mut Checker) {
    for mode in [0, 1] {
        budget(checker, &worked::b(10), wanted(mode, 0, 0, &[0, 0]));
        budget(checker, &worked::b(11), wanted(mode, 0, 1, &[0, 1]));
    }
    budget(checker, &worked::b(12), wanted(1, 1, 0, &[1, 1]));
    budget(checker, &worked::b(13), wanted(0, 0, 1, &[1, 2]));
}

fn circuit_c(checker: &mut Checker) {
    let c = worked::c();
    budget(checker, &c, wanted(0, 0, 2, &[5, 1, 2]));
    budget(checker, &c, wanted(1, 1, 2, &[5, 1, 2]));
}

fn bytes_of_a(checker: &mut Checker) {
    let file = worked::a().file();
    let plain = [
        16, 0, 7, 0, 0, 0, 0, 0, 0, 2, // mode 0, share 0, rounds 2
        17, 0, 10, 0, 2, 0, 0, 0, 3, 0, 0, 0, 2, // component 2, base 3, increment 2
        17, 0, 10, 0, 3, 0, 0, 0, 2, 0, 0, 0, 13, // component 3, base 2, increment 13
    ];
    let taken = checker.budget(0, &file, 36);
    checker.expect("36 bytes written", taken.answer, 36);
    checker.expect("the bytes", taken.contents, plain.to_vec());
    let refused = checker.budget(0, &file, 35);
    checker.expect("ROOM with place 36", refused.answer, 10 << 32 | 36);
    let bounds = checker.read_back(&file, &plain, 16);
    checker.expect("four numbers", bounds.answer, 4);
    let wanted = [0_u32, 0, 5, 15].map(u32::to_be_bytes).concat();
    checker.expect("bounds", bounds.contents, wanted);
}

pub fn slacks(checker: &mut Checker, netlist: &Netlist, wanted: &[i32]) {
    let outcome = checker.analyse(&netlist.file(), 4 * wanted.len());
    checker.expect("numbers written", outcome.answer, wanted.len() as u64);
    let bytes: Vec<u8> = wanted
        .iter()
        .flat_map(|slack| slack.to_be_bytes())
        .collect();
    checker.expect("slacks", outcome.contents, bytes);
}

fn budget(checker: &mut Checker, netlist: &Netlist, wanted: Wanted) {
    let needed = 10 + 13 * wanted.increments.len();
    let outcome = checker.budget(wanted.mode, &netlist.file(), needed);
    checker.expect("bytes written", outcome.answer, needed as u64);
    let field = |at: usize, length: usize| {
        let bytes = &outcome.contents[at..at + length];
        bytes
            .iter()
            .fold(0_u32, |number, &byte| number << 8 | u32::from(byte))
    };
    checker.expect("mode", field(3, 1), wanted.mode);
    checker.expect("share", field(4, 4), wanted.share);
    checker.expect("rounds", field(8, 2), wanted.rounds);
    for (at, &increment) in wanted.increments.iter().enumerate() {
        checker.expect("increment", field(10 + 13 * at + 9, 4), increment);
    }
}
