//! Results to read back: damaged ones, and good ones which budget would not have written.

use circuits::{worked, Netlist, Random, Shape};

use crate::checker::Checker;
use crate::damaged_netlists;
use crate::result_faults::{split, Records, FAULTS};

/// How often each fault is put in, somewhere.
const TRIES: usize = 100;

pub fn check(checker: &mut Checker) {
    checker.group("results cut after every byte", cut);
    checker.group(
        "results of circuit A with every byte changed to every value",
        every_value,
    );
    checker.group("a known fault put into a small result", |checker| {
        known_faults(checker, TRIES, small);
    });
    checker.group("a known fault put into a full-size result", |checker| {
        known_faults(checker, 5, full_size);
    });
    checker.group("two faults in one result", two_faults);
    checker.group("good results which budget would not write", unlikely);
    checker.group("results at the greatest values", greatest);
    checker.group("netlist judged before result, result before room", order);
    checker.group("results of late circuits are read", late);
}

/// A netlist with its result; it is in time.
fn small(random: &mut Random) -> (Netlist, Vec<u8>) {
    let netlist = damaged_netlists::small(random);
    let mode = random.below(2) as u32;
    let result = result_of(&netlist, mode);
    (netlist, result)
}

fn full_size(random: &mut Random) -> (Netlist, Vec<u8>) {
    let netlist = circuits::full_size(random, Shape::Any);
    let result = result_of(&netlist, 1);
    (netlist, result)
}

fn result_of(netlist: &Netlist, mode: u32) -> Vec<u8> {
    let mut result = vec![0; 10 + 13 * netlist.non_inputs()];
    let written = model::budget(mode, &netlist.file(), &mut result);
    assert_eq!(
        written,
        Ok(result.len()),
        "the generator promised a circuit that is in time"
    );
    result
}

fn cut(checker: &mut Checker) {
    for _ in 0..25 {
        let (netlist, result) = small(&mut checker.random);
        for length in 0..result.len() {
            let outcome = checker.read_back(&netlist.file(), &result[..length], 64);
            checker.expect("RESULT", outcome.answer >> 32, 11);
        }
    }
}

fn every_value(checker: &mut Checker) {
    let a = worked::a();
    let file = a.file();
    for mode in [0, 1] {
        let mut result = result_of(&a, mode);
        for at in 0..result.len() {
            let before = result[at];
            for value in 0..=255 {
                result[at] = value;
                checker.read_back(&file, &result, 17);
            }
            result[at] = before;
        }
    }
}

/// Here the place is known by the way the fault was made.
fn known_faults(checker: &mut Checker, tries: usize, make: fn(&mut Random) -> (Netlist, Vec<u8>)) {
    for (name, fault) in FAULTS {
        for _ in 0..tries {
            let (netlist, result) = make(&mut checker.random);
            let damaged = fault(&mut checker.random, split(&result));
            let Some(damaged) = damaged else { continue };
            let outcome = checker.read_back(&netlist.file(), &damaged.file, 64);
            checker.expect(name, outcome.answer, 11 << 32 | damaged.place as u64);
            *checker.tally.result_faults.entry(name).or_default() += 1;
        }
    }
}

fn two_faults(checker: &mut Checker) {
    for _ in 0..3_000 {
        let (netlist, result) = small(&mut checker.random);
        let (_, fault) = checker.random.pick(&FAULTS);
        let damaged = fault(&mut checker.random, split(&result));
        let Some(mut damaged) = damaged else { continue };
        if damaged.file.is_empty() {
            continue;
        }
        let at = checker.random.below(damaged.file.len());
        damaged.file[at] = checker.random.number() as u8;
        checker.read_back(&netlist.file(), &damaged.file, 64);
    }
}

/// Any share, rounds and increments within the limits are accepted.
fn unlikely(checker: &mut Checker) {
    for _ in 0..500 {
        let (netlist, result) = small(&mut checker.random);
        let records = restate(&mut checker.random, split(&result), 200_000_000);
        let outcome = checker.read_back(&netlist.file(), &records.concat(), 64);
        checker.expect("accepted", outcome.answer, netlist.parts.len() as u64);
    }
}

fn restate(random: &mut Random, mut records: Records, most: i64) -> Records {
    let mode = random.below(2) as u8;
    let share = i64::from(mode) * random.within(0, most);
    let rounds = random.below(records.len()) as u16;
    records[0][3] = mode;
    records[0][4..8].copy_from_slice(&(share as u32).to_be_bytes());
    records[0][8..10].copy_from_slice(&rounds.to_be_bytes());
    for record in &mut records[1..] {
        let increment = random.within(0, most) as u32;
        record[9..13].copy_from_slice(&increment.to_be_bytes());
    }
    records
}

/// Bounds of 200,065,535, the greatest there are.
fn greatest(checker: &mut Checker) {
    let mut b = worked::b(100_000_000);
    b.parts[1].base = 65_535;
    b.parts[2].base = 65_535;
    let mut records = split(&result_of(&b, 1));
    for (most, accepted) in [(200_000_000_u32, true), (200_000_001, false)] {
        for record in &mut records[1..] {
            record[9..13].copy_from_slice(&most.to_be_bytes());
        }
        let outcome = checker.read_back(&b.file(), &records.concat(), 12);
        checker.expect("accepted", outcome.answer == 3, accepted);
        if accepted {
            let wanted = [0_u32, 200_065_535, 200_065_535]
                .map(u32::to_be_bytes)
                .concat();
            checker.expect("bounds", outcome.contents, wanted);
        }
    }
}

fn order(checker: &mut Checker) {
    let file = worked::a().file();
    let mut result = result_of(&worked::a(), 0);
    let no_room = checker.read_back(&file, &result, 15);
    checker.expect("ROOM 4", no_room.answer, 10 << 32 | 4);
    result[23] = 0;
    let damaged = checker.read_back(&file, &result, 15);
    checker.expect("RESULT before ROOM", damaged.answer, 11 << 32 | 23);
    let broken = checker.read_back(&file[..68], &result, 15);
    checker.expect("netlist before RESULT", broken.answer, 2 << 32 | 62);
}

/// Read back does not judge time.
fn late(checker: &mut Checker) {
    let result = result_of(&worked::b(13), 0);
    for required in [9, 0, -100_000_000] {
        let outcome = checker.read_back(&worked::b(required).file(), &result, 12);
        checker.expect("accepted", outcome.answer, 3);
        let wanted = [0_u32, 5, 8].map(u32::to_be_bytes).concat();
        checker.expect("bounds", outcome.contents, wanted);
    }
}
