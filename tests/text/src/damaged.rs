//! Damaged netlists and results: the tool ends as the model says, and its words name the place.

use std::path::PathBuf;
use std::{env, fs, process};

use circuits::Random;
use model::{number, Answer, Refusal};

use crate::case::Case;
use crate::score::Outcome;
use crate::tool::{run, Done};
use crate::verdicts::wanted_result;

/// Circuits with more components are left out: the damage would be the same.
const SMALL: usize = 12;
/// So often each of the others is damaged.
const TRIES: usize = 12;
const ROOM: usize = 10 + 13 * 1_024;

pub fn netlist(case: &Case) -> Option<Outcome> {
    let records = case.netlist.records();
    let check = |random: &mut Random| {
        let file = damaged(random, &records);
        // What starts like a text is taken for one.
        if file.first().is_none_or(|&byte| is_for_text(byte)) {
            return Ok(());
        }
        let done = run(&["check", "-"], &file)?;
        let answer = model::budget(0, &file, &mut [0; ROOM]);
        agrees(&done, answer, file.len()).map_err(|why| format!("{why}\n{}", file.escape_ascii()))
    };
    tries(case, check)
}

pub fn result(case: &Case) -> Option<Outcome> {
    if case.is_late() {
        return None;
    }
    let circuit = circuit_file();
    if let Err(error) = fs::write(&circuit, &case.text) {
        return Some(Err(error.to_string()));
    }
    let check = |random: &mut Random| {
        let records = in_records(&wanted_result(case, 1)?);
        let result = damaged(random, &records);
        let done = run(&["bounds", &circuit.to_string_lossy(), "-"], &result)?;
        let answer = model::read_back(&case.file, &result, &mut [0; ROOM]);
        agrees(&done, answer, usize::MAX).map_err(|why| format!("{why}\n{}", result.escape_ascii()))
    };
    let outcome = tries(case, check);
    if let Err(error) = fs::remove_file(&circuit) {
        return Some(Err(error.to_string()));
    }
    outcome
}

/// The same damage in each run with the same circuits.
fn tries(case: &Case, mut check: impl FnMut(&mut Random) -> Outcome) -> Option<Outcome> {
    if case.names.len() > SMALL {
        return None;
    }
    let mut random = Random::new(case.text.len() as u64);
    Some((0..TRIES).try_for_each(|_| check(&mut random)))
}

fn circuit_file() -> PathBuf {
    env::temp_dir().join(format!("hozbantir-{}.hz", process::id()))
}

fn is_for_text(byte: u8) -> bool {
    byte >= 32 || b"\t\n\r".contains(&byte)
}

/// A summary of 10 bytes, bounds of 13 each.
fn in_records(result: &[u8]) -> Vec<Vec<u8>> {
    let (summary, bounds) = result.split_at(10);
    let bounds = bounds.chunks(13).map(<[u8]>::to_vec);
    [summary.to_vec()].into_iter().chain(bounds).collect()
}

/// Records lost, doubled, exchanged or cut off, or a byte that is another.
fn damaged(random: &mut Random, records: &[Vec<u8>]) -> Vec<u8> {
    let mut records = records.to_vec();
    let (one, other) = (random.below(records.len()), random.below(records.len()));
    match random.below(6) {
        0 => drop(records.remove(one)),
        1 => records.insert(other, records[one].clone()),
        2 => records.swap(one, other),
        3 => {
            records.truncate(one + 1);
            let end = random.below(records[one].len() + 1);
            records[one].truncate(end);
        }
        _ => {
            let at = random.below(records[one].len());
            let any = random.number() as u8;
            records[one][at] = random.pick(&[0, 1, 2, 3, 9, 255, any]);
        }
    }
    records.concat()
}

fn agrees(done: &Done, answer: Answer, length: usize) -> Outcome {
    match answer {
        Ok(_) => done.expect_status(0),
        Err(refusal) => {
            done.expect_status(1)?;
            done.expect_words(&place(refusal, length))
        }
    }
}

/// What the complaint has in it: the name of the component, or the byte that the refusal points at.
fn place(refusal: Refusal, length: usize) -> String {
    match refusal.number {
        number::ENDS | number::LATE => format!("`n{}`", refusal.place),
        _ if refusal.place >= length => "stdin: error: ".to_string(),
        _ => format!("stdin: byte {}: error: ", refusal.place),
    }
}
