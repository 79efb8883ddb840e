//! Makes a call of both, the library and the model, and keeps the score.

use std::fmt::Debug;
use std::process::ExitCode;

use calls::Outcome;
use circuits::Random;
use model::{packed, Answer, Events};

use crate::tally::{Call, Tally};

/// So many failures of one group are shown; the others are only counted.
const SHOWN: usize = 5;

pub struct Checker {
    pub random: Random,
    pub tally: Tally,
    failures: usize,
    passed: usize,
    failed: usize,
}

/// What one call was given.
#[derive(Clone, Copy, Hash)]
pub struct Given<'a> {
    pub call: Call,
    pub mode: u32,
    pub netlist: &'a [u8],
    pub result: &'a [u8],
    /// The length of the buffer lent, in bytes.
    pub room: usize,
}

impl Checker {
    pub fn new(seed: u64) -> Checker {
        let random = Random::new(seed);
        Checker {
            random,
            tally: Tally::default(),
            failures: 0,
            passed: 0,
            failed: 0,
        }
    }

    /// Runs the checks of a group, and counts the group as passed if none of them failed.
    pub fn group(&mut self, name: &str, checks: impl FnOnce(&mut Checker)) {
        let before = self.tally.compared;
        self.failures = 0;
        checks(self);
        let compared = self.tally.compared - before;
        if self.failures == 0 {
            self.passed += 1;
            println!("  passed  {compared:>7}  {name}");
        } else {
            self.failed += 1;
            println!(
                "  FAILED  {compared:>7}  {name}: {} failures",
                self.failures
            );
        }
    }

    /// A check against a value written down by hand.
    pub fn expect<T: PartialEq + Debug>(&mut self, what: &str, got: T, wanted: T) {
        if got != wanted {
            self.fail(|| format!("{what}: got {got:?}, wanted {wanted:?}"));
        }
    }

    pub fn fail(&mut self, message: impl FnOnce() -> String) {
        self.failures += 1;
        if self.failures <= SHOWN {
            println!("    {}", message());
        }
    }

    pub fn analyse(&mut self, netlist: &[u8], room: usize) -> Outcome {
        let given = Given {
            call: Call::Analyse,
            mode: 0,
            netlist,
            result: &[],
            room,
        };
        self.make(given, calls::analyse, model::analyse)
    }

    pub fn budget(&mut self, mode: u32, netlist: &[u8], room: usize) -> Outcome {
        let given = Given {
            call: Call::Budget,
            mode,
            netlist,
            result: &[],
            room,
        };
        let mut events = Events::default();
        let outcome = self.make(
            given,
            |netlist, prior| calls::budget(mode, netlist, prior),
            |netlist, buffer| model::budget_watched(mode, netlist, buffer, &mut events),
        );
        self.tally.add_events(&events);
        outcome
    }

    pub fn read_back(&mut self, netlist: &[u8], result: &[u8], room: usize) -> Outcome {
        let given = Given {
            call: Call::ReadBack,
            mode: 0,
            netlist,
            result,
            room,
        };
        self.make(
            given,
            |netlist, prior| calls::read_back(netlist, result, prior),
            |netlist, buffer| model::read_back(netlist, result, buffer),
        )
    }

    /// The buffer holds random bytes before, so that a byte left alone shows as such.
    fn make(
        &mut self,
        given: Given,
        library: impl FnOnce(&[u8], &[u8]) -> Outcome,
        model: impl FnOnce(&[u8], &mut [u8]) -> Answer,
    ) -> Outcome {
        let prior = self.random.bytes(given.room);
        let mut contents = prior.clone();
        let answer = packed(model(given.netlist, &mut contents));
        let wanted = Outcome {
            answer,
            contents,
            kept: true,
        };
        let got = library(given.netlist, &prior);
        self.tally.add_call(&given, answer);
        if got != wanted {
            self.fail(|| given.describe(&got, &wanted));
        }
        got
    }

    pub fn finish(self) -> ExitCode {
        println!("{}", self.tally);
        if let Some(calls) = calls::same() {
            println!("{calls} calls left the same as with the earlier library");
        }
        println!("{} passed, {} failed", self.passed, self.failed);
        if self.failed == 0 {
            ExitCode::SUCCESS
        } else {
            ExitCode::FAILURE
        }
    }
}

impl Given<'_> {
    fn describe(&self, got: &Outcome, wanted: &Outcome) -> String {
        format!(
            "{:?} mode {} room {}: got {}, wanted {}; {}; {}; netlist {}; result {}",
            self.call,
            self.mode,
            self.room,
            spoken(got.answer),
            spoken(wanted.answer),
            difference(&got.contents, &wanted.contents),
            if got.kept {
                "guards kept"
            } else {
                "GUARDS OR INPUTS CHANGED"
            },
            hex(self.netlist),
            hex(self.result),
        )
    }
}

fn spoken(answer: u64) -> String {
    format!("{} at {}", answer >> 32, answer & 0xffff_ffff)
}

fn difference(got: &[u8], wanted: &[u8]) -> String {
    match got
        .iter()
        .zip(wanted)
        .position(|(got, wanted)| got != wanted)
    {
        Some(at) => format!("byte {at} is {} and not {}", got[at], wanted[at]),
        None => "same contents".to_string(),
    }
}

/// Long files are cut; the seed brings them back.
fn hex(bytes: &[u8]) -> String {
    let shown = &bytes[..bytes.len().min(200)];
    let digits: String = shown.iter().map(|byte| format!("{byte:02x}")).collect();
    format!("[{} bytes {digits}]", bytes.len())
}
