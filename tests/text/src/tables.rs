//! The tables for programs, against the model's numbers.

use model::Budget;

use crate::case::Case;
use crate::score::{equal_texts, Outcome};
use crate::tool::printed;
use crate::writer;

pub fn slacks(case: &Case) -> Option<Outcome> {
    let check = || {
        let table = printed(&["slacks", "--format", "tsv", "-"], &case.text)?;
        equal_texts(&table, &wanted_slacks(case))
    };
    Some(check())
}

fn wanted_slacks(case: &Case) -> String {
    let mut table = "number\tcomponent\tkind\tdelay\tslack\n".to_string();
    for (number, part) in case.netlist.parts.iter().enumerate() {
        let (name, kind) = (&case.names[number], writer::word(part.kind));
        let (delay, slack) = (part.base, case.slacks[number]);
        table.push_str(&format!("{number}\t{name}\t{kind}\t{delay}\t{slack}\n"));
    }
    table
}

pub fn plain(case: &Case) -> Option<Outcome> {
    budget(case, "plain", 0)
}

pub fn even(case: &Case) -> Option<Outcome> {
    budget(case, "even", 1)
}

fn budget(case: &Case, word: &str, mode: usize) -> Option<Outcome> {
    let wanted = wanted_budget(case, &case.budgets.as_ref()?[mode]);
    let check = || {
        let words = ["budget", "--mode", word, "--format", "tsv", "-"];
        equal_texts(&printed(&words, &case.text)?, &wanted)
    };
    Some(check())
}

fn wanted_budget(case: &Case, budget: &Budget) -> String {
    let mut table = "number\tcomponent\tdelay\tincrement\tbound\n".to_string();
    for number in case.circuit.non_inputs() {
        let (name, delay) = (&case.names[number], case.netlist.parts[number].base);
        let increment = budget.increment(&case.circuit, number);
        let bound = budget.delays[number];
        table.push_str(&format!(
            "{number}\t{name}\t{delay}\t{increment}\t{bound}\n"
        ));
    }
    table
}
