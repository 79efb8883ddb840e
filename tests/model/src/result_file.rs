//! Writes a result: a summary, then a bound for each non-input.

use crate::budget::Budget;
use crate::circuit::Circuit;
use crate::records::{self, head};

pub fn length(circuit: &Circuit) -> usize {
    10 + 13 * circuit.non_inputs().count()
}

pub fn encode(circuit: &Circuit, budget: &Budget) -> Vec<u8> {
    let mut file = Vec::with_capacity(length(circuit));
    file.extend(head(records::SUMMARY, 7));
    file.push(budget.mode);
    file.extend(word(budget.share));
    file.extend((budget.rounds as u16).to_be_bytes());
    for component in circuit.non_inputs() {
        file.extend(head(records::BOUND, 10));
        file.extend((component as u16).to_be_bytes());
        file.extend(word(circuit.components[component].base));
        file.extend(word(budget.increment(circuit, component)));
    }
    file
}

/// The values written here are at most 200,000,000 and never negative.
fn word(value: i64) -> [u8; 4] {
    (value as u32).to_be_bytes()
}
