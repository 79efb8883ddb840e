//! Judges a result against the circuit it should belong to, and takes the bounds from it.

use crate::answer::{number, Refusal};
use crate::circuit::Circuit;
use crate::limits;
use crate::records::{self, half, record_at, word};

/// The bound of each component, or RESULT at the first record unlike the one due there.
pub fn bounds(circuit: &Circuit, result: &[u8]) -> Result<Vec<u32>, Refusal> {
    let mut bounds = vec![0; circuit.len()];
    let mut offset = 0;
    let summary = due(result, &mut offset, records::SUMMARY, 7)?;
    if !summary_fits(summary, circuit.non_inputs().count()) {
        return Err(unlike(0));
    }
    for component in circuit.non_inputs() {
        let here = offset;
        let contents = due(result, &mut offset, records::BOUND, 10)?;
        bounds[component] = bound(circuit, component, contents).ok_or(unlike(here))?;
    }
    if offset < result.len() {
        return Err(unlike(offset));
    }
    Ok(bounds)
}

fn unlike(offset: usize) -> Refusal {
    Refusal::new(number::RESULT, offset)
}

/// The contents of the record at the offset if it has this form; the offset then moves past it.
fn due<'a>(
    result: &'a [u8],
    offset: &mut usize,
    tag: u8,
    length: usize,
) -> Result<&'a [u8], Refusal> {
    match record_at(result, *offset) {
        Some(record) if record.tag == tag && record.contents.len() == length => {
            *offset = record.end;
            Ok(record.contents)
        }
        _ => Err(unlike(*offset)),
    }
}

fn summary_fits(contents: &[u8], non_inputs: usize) -> bool {
    let share = word(contents, 1);
    let share_fits = match contents[0] {
        0 => share == 0,
        1 => share <= limits::INCREMENT,
        _ => false,
    };
    share_fits && usize::from(half(contents, 5)) <= non_inputs
}

fn bound(circuit: &Circuit, component: usize, contents: &[u8]) -> Option<u32> {
    let base = word(contents, 2);
    let increment = word(contents, 6);
    let fits = usize::from(half(contents, 0)) == component
        && i64::from(base) == circuit.components[component].base
        && increment <= limits::INCREMENT;
    fits.then(|| base + increment)
}
