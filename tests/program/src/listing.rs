//! What the program should print for a netlist, made from the model.

use std::fmt::Write;

use model::{Budget, Circuit, Refusal};

pub fn of(netlist: &[u8]) -> String {
    match listing(netlist) {
        Ok(text) => text,
        Err(refusal) => format!("refused {} {}\n", refusal.number, refusal.place),
    }
}

fn listing(netlist: &[u8]) -> Result<String, Refusal> {
    let circuit = model::decode(netlist)?;
    let mut text = String::new();
    for mode in [0, 1] {
        text.push_str(&budget(&circuit, &model::plan(&circuit, mode)?));
    }
    Ok(text)
}

fn budget(circuit: &Circuit, budget: &Budget) -> String {
    let Budget {
        mode,
        share,
        rounds,
        delays,
    } = budget;
    let mut text = format!("mode {mode} share {share} rounds {rounds}\n");
    for component in circuit.non_inputs() {
        let base = circuit.components[component].base;
        let increment = budget.increment(circuit, component);
        let bound = delays[component];
        // Writing into a string cannot fail.
        let _ = writeln!(text, "{component} {base} {increment} {bound}");
    }
    text
}
