//! All that is tried with one netlist.

use circuits::Netlist;

use crate::checker::Checker;

/// Modes, two of which are none.
pub const MODES: [u32; 4] = [0, 1, 2, u32::MAX];

/// Every call on a netlist file that may be refused, with room enough and to spare.
pub fn refused_or_not(checker: &mut Checker, netlist: &[u8]) {
    checker.analyse(netlist, 64);
    let mode = checker.random.below(2) as u32;
    checker.budget(mode, netlist, 96);
    checker.read_back(netlist, &[16, 0, 7, 0, 0, 0, 0, 0, 0, 0], 64);
}

/// Every call in every mode on a circuit, and the results that come of it.
pub fn circuit(checker: &mut Checker, netlist: &Netlist) {
    let file = netlist.file();
    let numbers = 4 * netlist.parts.len();
    let room = numbers + checker.random.below(9);
    checker.analyse(&file, room);
    for mode in MODES {
        let needed = 10 + 13 * netlist.non_inputs();
        let room = needed + checker.random.below(9);
        let outcome = checker.budget(mode, &file, room);
        if outcome.answer == needed as u64 {
            result(checker, netlist, &outcome.contents[..needed]);
        }
    }
}

/// Reads back what budget wrote, and judges it by the two files alone.
fn result(checker: &mut Checker, netlist: &Netlist, result: &[u8]) {
    let file = netlist.file();
    let numbers = 4 * netlist.parts.len();
    let room = numbers + checker.random.below(9);
    let once = checker.read_back(&file, result, room);
    checker.expect(
        "bounds",
        once.contents[..numbers].to_vec(),
        bounds(netlist, result),
    );
    // Over its own output it must write the same again.
    let twice = calls::read_back(&file, result, &once.contents);
    checker.expect("reading back twice", twice, once);
}

/// 0 for an input, base plus increment for the others, as bytes.
fn bounds(netlist: &Netlist, result: &[u8]) -> Vec<u8> {
    let mut increments = result[10..].chunks(13).map(|record| &record[9..13]);
    let bound = |part: &circuits::Part| match part.kind {
        circuits::Kind::Input => 0,
        _ => part.base + increments.next().map_or(0, word),
    };
    netlist
        .parts
        .iter()
        .map(bound)
        .flat_map(u32::to_be_bytes)
        .collect()
}

fn word(bytes: &[u8]) -> u32 {
    bytes
        .iter()
        .fold(0, |number, &byte| number << 8 | u32::from(byte))
}
