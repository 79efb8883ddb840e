//! What a run met: calls, answers, turns of the rounds, faults.

use std::collections::hash_map::DefaultHasher;
use std::collections::{BTreeMap, HashSet};
use std::fmt;
use std::hash::{Hash, Hasher};

use model::Events;

use crate::checker::Given;

#[derive(Clone, Copy, Debug, Hash, PartialEq, Eq)]
pub enum Call {
    Analyse,
    Budget,
    ReadBack,
}

/// Success, then the refusals by number. No answer has number 9.
pub const NAMES: [&str; 12] = [
    "success", "MODE", "BROKEN", "TAG", "SIZE", "FIELD", "WIRING", "ENDS", "LATE", "(none)",
    "ROOM", "RESULT",
];

#[derive(Default)]
pub struct Tally {
    /// Calls made of both and compared.
    pub compared: usize,
    distinct: HashSet<u64>,
    answers: [[usize; NAMES.len()]; 3],
    pub events: Events,
    /// Budgets that took two rounds or more.
    pub long_runs: u64,
    /// Budgets that took as many rounds as there are components to serve, and more than that.
    pub full_runs: u64,
    pub overlong_runs: u64,
    pub netlist_faults: BTreeMap<&'static str, usize>,
    pub result_faults: BTreeMap<&'static str, usize>,
}

impl Tally {
    pub fn add_call(&mut self, given: &Given, answer: u64) {
        self.compared += 1;
        let mut hasher = DefaultHasher::new();
        given.hash(&mut hasher);
        self.distinct.insert(hasher.finish());
        self.answers[given.call as usize][(answer >> 32) as usize] += 1;
    }

    pub fn add_events(&mut self, events: &Events) {
        let all = &mut self.events;
        all.rounds += events.rounds;
        all.start_ties += events.start_ties;
        all.forward_ties += events.forward_ties;
        all.backward_steps += events.backward_steps;
        all.forward_stops_required += events.forward_stops_required;
        all.forward_stops_arrival += events.forward_stops_arrival;
        all.backward_stops_required += events.backward_stops_required;
        all.backward_stops_arrival += events.backward_stops_arrival;
        all.stops_before_input += events.stops_before_input;
        all.uneven += events.uneven;
        self.long_runs += u64::from(events.rounds >= 2);
        self.full_runs += u64::from(events.rounds >= 2 && events.rounds == events.to_serve);
        self.overlong_runs += u64::from(events.rounds > events.to_serve);
    }

    /// How many of the compared inputs differ from each other in what the call was given.
    pub fn distinct(&self) -> usize {
        self.distinct.len()
    }

    pub fn answered(&self, call: Call, number: usize) -> usize {
        self.answers[call as usize][number]
    }

    /// The turns of the rounds that have to be met, by name.
    pub fn turns(&self) -> [(&'static str, u64); 10] {
        let events = &self.events;
        [
            ("ties for a round's start", events.start_ties),
            ("ties of a forward walk", events.forward_ties),
            (
                "forward stops, only required times fit",
                events.forward_stops_required,
            ),
            (
                "forward stops, only arrivals fit",
                events.forward_stops_arrival,
            ),
            (
                "backward stops, only required times fit",
                events.backward_stops_required,
            ),
            (
                "backward stops, only arrivals fit",
                events.backward_stops_arrival,
            ),
            ("backward stops before an input", events.stops_before_input),
            ("rounds not divided evenly", events.uneven),
            ("budgets of two rounds or more", self.long_runs),
            (
                "budgets of a round for each to serve, two or more",
                self.full_runs,
            ),
        ]
    }
}

impl fmt::Display for Tally {
    fn fmt(&self, out: &mut fmt::Formatter) -> fmt::Result {
        writeln!(out, "answers          analyse   budget  read back")?;
        for (number, name) in NAMES.iter().enumerate() {
            let [analyse, budget, read_back] = self.answers.map(|counts| counts[number]);
            writeln!(
                out,
                "{number:>4} {name:<9} {analyse:>9} {budget:>8} {read_back:>10}"
            )?;
        }
        writeln!(out, "turns of {} rounds", self.events.rounds)?;
        for (name, count) in self.turns() {
            writeln!(out, "{count:>9}  {name}")?;
        }
        writeln!(out, "faults put into netlists")?;
        for (name, count) in &self.netlist_faults {
            writeln!(out, "{count:>9}  {name}")?;
        }
        writeln!(out, "faults put into results")?;
        for (name, count) in &self.result_faults {
            writeln!(out, "{count:>9}  {name}")?;
        }
        write!(
            out,
            "{} compared inputs, {} of them distinct",
            self.compared,
            self.distinct()
        )
    }
}
