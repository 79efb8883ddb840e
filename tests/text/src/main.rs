//! Generated circuits go through the tool as text, and have to come out as the encoder and the
//! model have them: the bytes, the tables, the picture.
//!
//! Usage: `text [COUNT [SEED]]`. The last line says how many groups of checks passed and failed.

mod case;
mod damaged;
mod names;
mod picture;
mod round_trips;
mod score;
mod tables;
mod tool;
mod verdicts;
mod ways;
mod writer;

use std::process::ExitCode;

use circuits::Random;

use case::Case;
use score::{Check, Score};
use ways::Ways;

const USUAL_COUNT: u64 = 150;
/// The year of the paper that gives the definitions.
const USUAL_SEED: u64 = 1989;

/// What is looked at in every circuit to which it applies.
const CHECKS: [(&str, Check); 13] = [
    (
        "pack of a text gives the encoder's bytes",
        round_trips::text,
    ),
    (
        "unpack of a netlist, then pack, gives its bytes",
        round_trips::netlist,
    ),
    (
        "unpack of a text keeps kinds, names and bytes, and is a fixed point",
        round_trips::canonical,
    ),
    (
        "slacks has names, kinds, delays, and the model's slacks",
        tables::slacks,
    ),
    (
        "budget in plain mode has the model's increments and bounds",
        tables::plain,
    ),
    (
        "budget in even mode has the model's increments and bounds",
        tables::even,
    ),
    ("budget --result writes the model's bytes", verdicts::result),
    (
        "budget of a late circuit is refused, and writes nothing",
        verdicts::late_budget,
    ),
    (
        "check of a circuit in time ends with status 0",
        verdicts::check_in_time,
    ),
    (
        "check of a late circuit ends with status 1",
        verdicts::check_late,
    ),
    (
        "draw shows the components, and a path of least slack thick",
        picture::thick_path,
    ),
    (
        "a damaged netlist is refused as the model says, in words that name the place",
        damaged::netlist,
    ),
    ("so is a damaged result", damaged::result),
];

fn main() -> ExitCode {
    let Some([count, seed]) = arguments() else {
        eprintln!("usage: text [COUNT [SEED]]");
        return ExitCode::FAILURE;
    };
    println!("{count} generated circuits and the worked ones, seed {seed}");
    let mut random = Random::new(seed);
    let mut score = Score::new(&CHECKS);
    let mut ways = Ways::default();
    for case in case::worked(&mut random) {
        look_at(&case, &mut score, &mut ways);
    }
    for turn in 0..count {
        let case = case::generated(&mut random, turn, count);
        look_at(&case, &mut score, &mut ways);
    }
    score.finish(&ways)
}

fn look_at(case: &Case, score: &mut Score, ways: &mut Ways) {
    ways.look_at(case);
    score.check(case);
}

/// Count and seed, as given or as usual.
fn arguments() -> Option<[u64; 2]> {
    let mut numbers = [USUAL_COUNT, USUAL_SEED];
    let given: Vec<String> = std::env::args().skip(1).collect();
    if given.len() > numbers.len() {
        return None;
    }
    for (number, text) in numbers.iter_mut().zip(&given) {
        *number = text.parse().ok()?;
    }
    Some(numbers)
}
