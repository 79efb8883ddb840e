//! The three calls, over lent bytes as at the C boundary.

use crate::answer::{need_room, number, Answer, Refusal};
use crate::budget::plan_watched;
use crate::decode::decode;
use crate::read_back::bounds;
use crate::result_file;
use crate::rounds::Watch;
use crate::times::Times;

/// Writes each component's slack at base delays.
pub fn analyse(netlist: &[u8], slacks: &mut [u8]) -> Answer {
    let circuit = decode(netlist)?;
    need_room(circuit.len(), slacks.len() / 4)?;
    let times = Times::of(&circuit, &circuit.base_delays());
    for (component, field) in slacks.chunks_exact_mut(4).take(circuit.len()).enumerate() {
        field.copy_from_slice(&(times.slack(component) as i32).to_be_bytes());
    }
    Ok(circuit.len())
}

/// Writes a result with an increment for each net.
pub fn budget(mode: u32, netlist: &[u8], result: &mut [u8]) -> Answer {
    budget_watched(mode, netlist, result, &mut ())
}

pub fn budget_watched(
    mode: u32,
    netlist: &[u8],
    result: &mut [u8],
    watch: &mut impl Watch,
) -> Answer {
    let mode = match mode {
        0 => 0,
        1 => 1,
        _ => return Err(Refusal::new(number::MODE, 0)),
    };
    let circuit = decode(netlist)?;
    let budget = plan_watched(&circuit, mode, watch)?;
    let needed = result_file::length(&circuit);
    need_room(needed, result.len())?;
    result[..needed].copy_from_slice(&result_file::encode(&circuit, &budget));
    Ok(needed)
}

/// Writes the bound of each component from a result.
pub fn read_back(netlist: &[u8], result: &[u8], bounds_out: &mut [u8]) -> Answer {
    let circuit = decode(netlist)?;
    let bounds = bounds(&circuit, result)?;
    need_room(circuit.len(), bounds_out.len() / 4)?;
    for (bound, field) in bounds.iter().zip(bounds_out.chunks_exact_mut(4)) {
        field.copy_from_slice(&bound.to_be_bytes());
    }
    Ok(circuit.len())
}
