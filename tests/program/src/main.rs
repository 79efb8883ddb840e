//! Runs the program `budget` on netlists and compares what it prints.
//!
//! The last line says how many checks passed and failed.

mod listing;
mod runs;

use std::process::ExitCode;

use circuits::{worked, Random, Shape};

/// The program reads no more than this.
const MOST: usize = 65_536;

#[derive(Default)]
struct Score {
    passed: usize,
    failed: usize,
}

impl Score {
    fn check(&mut self, name: &str, input: &[u8], wanted: &str) {
        match runs::printed(input) {
            Ok(printed) if printed == wanted => {
                self.passed += 1;
                println!("  passed  {name}");
            }
            Ok(printed) => self.fail(name, &runs::difference(&printed, wanted)),
            Err(error) => self.fail(name, &error),
        }
    }

    fn fail(&mut self, name: &str, why: &str) {
        self.failed += 1;
        println!("  FAILED  {name}: {why}");
    }
}

fn main() -> ExitCode {
    let mut score = Score::default();
    worked_circuits(&mut score);
    long_inputs(&mut score);
    generated_circuits(&mut score);
    println!("{} passed, {} failed", score.passed, score.failed);
    if score.failed == 0 {
        ExitCode::SUCCESS
    } else {
        ExitCode::FAILURE
    }
}

fn worked_circuits(score: &mut Score) {
    let listing = "mode 0 share 0 rounds 2\n2 3 2 5\n3 2 13 15\n\
                   mode 1 share 7 rounds 1\n2 3 7 10\n3 2 8 10\n";
    score.check("circuit A", &worked::a().file(), listing);
    score.check(
        "circuit B with required time 9",
        &worked::b(9).file(),
        "refused 8 2\n",
    );
    score.check(
        "circuit C",
        &worked::c().file(),
        &listing::of(&worked::c().file()),
    );
    score.check("empty input", &[], "refused 4 0\n");
    score.check("two bytes", &[1, 0], "refused 2 0\n");
}

/// A record that ends with the input is whole, and refused for its length, only if all of the input
/// is judged; cut off at the limit it is broken.
fn long_inputs(score: &mut Score) {
    score.check(
        "65,536 bytes, all judged",
        &one_record(MOST),
        "refused 3 0\n",
    );
    score.check(
        "65,537 bytes, the last not judged",
        &one_record(MOST + 1),
        "refused 2 0\n",
    );
    score.check(
        "65,538 bytes, the last two not judged",
        &one_record(MOST + 2),
        "refused 2 0\n",
    );
    let mut much = worked::a().file();
    much.resize(1_000_000, 0);
    score.check("a million bytes", &much, "refused 3 69\n");
}

/// One record of tag 1 that takes the whole input.
fn one_record(length: usize) -> Vec<u8> {
    let contents = (length - 3) as u16;
    let mut input = vec![1];
    input.extend(contents.to_be_bytes());
    input.resize(length, 0);
    input
}

fn generated_circuits(score: &mut Score) {
    let mut random = Random::new(1989);
    for shape in Shape::ALL {
        let file = circuits::full_size(&mut random, shape).file();
        score.check(
            &format!("{shape:?} circuit of full size"),
            &file,
            &listing::of(&file),
        );
    }
}
