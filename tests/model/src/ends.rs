//! Inputs begin paths, outputs end them, and every other component has a path through it.

use crate::answer::{number, Refusal};
use crate::circuit::{Circuit, Kind};

/// ENDS at the lowest component whose wires do not suit its kind.
pub fn judge(circuit: &Circuit) -> Result<(), Refusal> {
    match (0..circuit.len()).find(|&component| !suits(circuit, component)) {
        Some(component) => Err(Refusal::new(number::ENDS, component)),
        None => Ok(()),
    }
}

/// Exactly the inputs are without fan-in, and exactly the outputs without fan-out.
fn suits(circuit: &Circuit, component: usize) -> bool {
    let kind = circuit.components[component].kind;
    let begins = circuit.fan_in(component).is_empty();
    let ends = circuit.fan_out(component).is_empty();
    begins == (kind == Kind::Input) && ends == (kind == Kind::Output)
}
