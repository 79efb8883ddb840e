//! Netlists that are damaged: cut, changed by a byte, or with a fault put in.

use circuits::{worked, Delays, Netlist, Random, Scale, Shape, Size, Spare};

use crate::checker::Checker;
use crate::netlist_faults::FAULTS;
use crate::tries;

/// How often each fault is put in, somewhere.
const TRIES: usize = 100;

pub fn check(checker: &mut Checker) {
    checker.group("netlists cut after every byte", cut);
    checker.group(
        "circuit A with every byte changed to every value",
        every_value,
    );
    checker.group("small netlists with every byte changed", every_byte);
    checker.group("a known fault put into a small netlist", |checker| {
        known_faults(checker, TRIES, small);
    });
    checker.group("a known fault put into a large netlist", |checker| {
        known_faults(checker, 5, large);
    });
    checker.group("two faults in one netlist", two_faults);
    checker.group("random bytes as a netlist", noise);
}

/// A small circuit; it is in time.
pub fn small(random: &mut Random) -> Netlist {
    let size = Size {
        components: 2 + random.below(9),
        connections: random.below(20),
    };
    let shape = random.pick(&Shape::ALL);
    let rules = (Delays::UpTo(70), Scale::Near, Spare::UpTo(300));
    circuits::circuit(random, (shape, size), rules)
}

/// Not of full size, as some faults add a connection.
fn large(random: &mut Random) -> Netlist {
    let size = Size {
        components: 1_024,
        connections: 4_000,
    };
    let rules = (Delays::UpTo(70), Scale::Near, Spare::UpTo(300));
    circuits::circuit(random, (Shape::Any, size), rules)
}

fn cut(checker: &mut Checker) {
    let mut netlists = vec![worked::a(), worked::b(9), worked::c()];
    netlists.extend((0..10).map(|_| small(&mut checker.random)));
    for netlist in netlists {
        let file = netlist.file();
        for length in 0..file.len() {
            tries::refused_or_not(checker, &file[..length]);
        }
    }
}

fn every_value(checker: &mut Checker) {
    let mut file = worked::a().file();
    for at in 0..file.len() {
        let before = file[at];
        for value in 0..=255 {
            file[at] = value;
            tries::refused_or_not(checker, &file);
        }
        file[at] = before;
    }
}

fn every_byte(checker: &mut Checker) {
    for _ in 0..40 {
        let file = small(&mut checker.random).file();
        for at in 0..file.len() {
            let mut changed = file.clone();
            let other = checker.random.within(1, 255) as u8;
            changed[at] = checker
                .random
                .pick(&[changed[at] ^ 1, changed[at] ^ other, 0, 255]);
            tries::refused_or_not(checker, &changed);
        }
    }
}

/// Here the refusal is known by the way the fault was made.
fn known_faults(checker: &mut Checker, tries: usize, make: fn(&mut Random) -> Netlist) {
    for (name, fault) in FAULTS {
        for _ in 0..tries {
            let netlist = make(&mut checker.random);
            let Some(damaged) = fault(&mut checker.random, &netlist) else {
                continue;
            };
            tries::refused_or_not(checker, &damaged.file);
            let outcome = checker.analyse(&damaged.file, 256);
            checker.expect(name, outcome.answer >> 32, damaged.number);
            if let Some(place) = damaged.place {
                checker.expect(name, outcome.answer & 0xffff_ffff, place as u64);
            }
            *checker.tally.netlist_faults.entry(name).or_default() += 1;
        }
    }
}

/// The first of two faults decides, whichever was put in first.
fn two_faults(checker: &mut Checker) {
    for _ in 0..3_000 {
        let netlist = small(&mut checker.random);
        let (_, fault) = checker.random.pick(&FAULTS);
        let Some(damaged) = fault(&mut checker.random, &netlist) else {
            continue;
        };
        let mut file = damaged.file;
        if file.is_empty() {
            continue;
        }
        let at = checker.random.below(file.len());
        file[at] = checker.random.number() as u8;
        tries::refused_or_not(checker, &file);
    }
}

/// Heads are made likely, for bytes without any sense are refused at once.
fn noise(checker: &mut Checker) {
    for _ in 0..1_000 {
        let mut file = Vec::new();
        for _ in 0..checker.random.below(8) {
            let random = &mut checker.random;
            let (tag, length) = random.pick(&[(1, 9), (1, 9), (2, 4), (2, 4), (16, 7), (3, 0)]);
            file.extend([tag, 0, length]);
            file.extend((0..length).map(|_| random.below(3) as u8));
        }
        tries::refused_or_not(checker, &file);
    }
}
