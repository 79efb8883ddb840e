//! A run counts only if it met every answer, every turn of the rounds and every fault.

use crate::checker::Checker;
use crate::tally::{Call, NAMES};
use crate::{netlist_faults, result_faults};

const LEAST: usize = 20_000;

/// The answers each call can give, by number.
const ANSWERS: [(Call, &[usize]); 3] = [
    (Call::Analyse, &[0, 2, 3, 4, 5, 6, 7, 10]),
    (Call::Budget, &[0, 1, 2, 3, 4, 5, 6, 7, 8, 10]),
    (Call::ReadBack, &[0, 2, 3, 4, 5, 6, 7, 10, 11]),
];

pub fn check(checker: &mut Checker) {
    checker.group("at least 20,000 distinct inputs were compared", |checker| {
        let distinct = checker.tally.distinct();
        checker.expect("enough", distinct >= LEAST, true);
    });
    checker.group("every answer of every call was met", answers);
    checker.group("every turn of the rounds was met", |checker| {
        for (name, count) in checker.tally.turns() {
            checker.expect(name, count > 0, true);
        }
        let backward_steps = checker.tally.events.backward_steps;
        checker.expect("steps of backward walks", backward_steps, 0);
        let overlong_runs = checker.tally.overlong_runs;
        checker.expect("rounds past the last to serve", overlong_runs, 0);
    });
    checker.group("every fault was put in", faults);
}

fn answers(checker: &mut Checker) {
    for (call, numbers) in ANSWERS {
        for (number, name) in NAMES.iter().enumerate() {
            let met = checker.tally.answered(call, number) > 0;
            let what = format!("{call:?} {name}");
            checker.expect(&what, met, numbers.contains(&number));
        }
    }
}

fn faults(checker: &mut Checker) {
    for (name, _) in netlist_faults::FAULTS {
        let met = checker.tally.netlist_faults.contains_key(name);
        checker.expect(name, met, true);
    }
    for (name, _) in result_faults::FAULTS {
        let met = checker.tally.result_faults.contains_key(name);
        checker.expect(name, met, true);
    }
}
