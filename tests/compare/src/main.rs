//! Compares the library with the model through the C boundary, on fixed and generated inputs.
//!
//! Usage: `compare [SEED]`. The last line says how many groups of checks passed and failed.

mod checker;
mod coverage;
mod damaged_netlists;
mod damaged_results;
mod document;
mod ends_of_ranges;
mod generated;
mod lengths;
mod modes;
mod netlist_faults;
mod null;
mod paths;
mod refusals;
mod result_faults;
mod tally;
mod tries;

use std::process::ExitCode;

use checker::Checker;

/// The year of the paper that gives the definitions.
const USUAL_SEED: u64 = 1989;

fn main() -> ExitCode {
    let seed = match std::env::args().nth(1).map(|text| text.parse()) {
        None => USUAL_SEED,
        Some(Ok(seed)) => seed,
        Some(Err(_)) => {
            eprintln!("usage: compare [SEED]");
            return ExitCode::FAILURE;
        }
    };
    println!("seed {seed}");
    let mut checker = Checker::new(seed);
    document::check(&mut checker);
    refusals::check(&mut checker);
    ends_of_ranges::check(&mut checker);
    null::check(&mut checker);
    modes::check(&mut checker);
    paths::check(&mut checker);
    generated::check(&mut checker);
    lengths::check(&mut checker);
    damaged_netlists::check(&mut checker);
    damaged_results::check(&mut checker);
    coverage::check(&mut checker);
    checker.finish()
}
