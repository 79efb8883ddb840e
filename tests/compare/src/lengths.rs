//! Buffers of every length around the needed one.

use std::ops::RangeInclusive;

use circuits::{worked, Delays, Netlist, Scale, Shape, Size, Spare};

use crate::checker::Checker;

pub fn check(checker: &mut Checker) {
    checker.group(
        "buffers of every length up to the needed one and five more",
        small,
    );
    checker.group(
        "buffers near the needed length for full-size circuits",
        full_size,
    );
}

fn small(checker: &mut Checker) {
    let mut netlists = vec![
        worked::a(),
        worked::b(9),
        worked::b(10),
        worked::b(11),
        worked::c(),
    ];
    for shape in Shape::ALL.repeat(8) {
        let size = Size {
            components: 2 + checker.random.below(14),
            connections: 20,
        };
        let rules = (Delays::UpTo(9), Scale::Near, Spare::UpTo(30));
        netlists.push(circuits::circuit(&mut checker.random, (shape, size), rules));
    }
    for netlist in &netlists {
        let numbers = 4 * netlist.parts.len();
        let bytes = 10 + 13 * netlist.non_inputs();
        every_length(checker, netlist, 0..=numbers + 5, 0..=bytes + 5);
    }
}

fn full_size(checker: &mut Checker) {
    for shape in Shape::ALL {
        let netlist = circuits::full_size(&mut checker.random, shape);
        let numbers = 4 * netlist.parts.len();
        let bytes = 10 + 13 * netlist.non_inputs();
        every_length(
            checker,
            &netlist,
            numbers - 5..=numbers + 5,
            bytes - 5..=bytes + 5,
        );
        every_length(checker, &netlist, 0..=0, 0..=0);
    }
}

fn every_length(
    checker: &mut Checker,
    netlist: &Netlist,
    numbers: RangeInclusive<usize>,
    bytes: RangeInclusive<usize>,
) {
    let file = netlist.file();
    // The mode makes no difference to the length needed; full-size budgets take their time.
    let mode = checker.random.below(2) as u32;
    let mut result = vec![0; 10 + 13 * netlist.non_inputs()];
    let has_result = model::budget(mode, &file, &mut result).is_ok();
    for room in numbers {
        checker.analyse(&file, room);
        if has_result {
            checker.read_back(&file, &result, room);
        }
    }
    for room in bytes {
        checker.budget(mode, &file, room);
    }
}
