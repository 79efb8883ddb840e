//! Rounds: each gives the slack of one segment to the components of that segment.

use crate::circuit::Circuit;
use crate::times::Times;

/// A round as it stands before its slack is given.
pub struct Round<'a> {
    pub circuit: &'a Circuit,
    pub delays: &'a [i64],
    pub times: &'a Times,
    /// The component the round starts at.
    pub start: usize,
    /// From first to last.
    pub segment: &'a [usize],
}

impl Round<'_> {
    /// Whether required times, and whether arrivals, let `after` follow `before`.
    pub fn fits(&self, before: usize, after: usize) -> (bool, bool) {
        fits(self.times, self.delays, before, after)
    }
}

/// One who looks on while rounds are done, so that the rounds need not count for the tests.
pub trait Watch {
    fn round(&mut self, round: &Round);
}

/// Nobody looks on.
impl Watch for () {
    fn round(&mut self, _: &Round) {}
}

/// Spends the slack of all non-inputs, and counts the rounds it takes.
pub fn spend(circuit: &Circuit, delays: &mut [i64], watch: &mut impl Watch) -> usize {
    let mut times = Times::of(circuit, delays);
    let mut segment = Vec::new();
    let mut rounds = 0;
    while let Some(start) = start(circuit, &times) {
        find_segment(circuit, delays, &times, start, &mut segment);
        watch.round(&Round {
            circuit,
            delays,
            times: &times,
            start,
            segment: &segment,
        });
        give(delays, &segment, times.slack(start));
        times.work_out(circuit, delays);
        rounds += 1;
    }
    rounds
}

/// Of the non-inputs with positive slack, the lowest of those with the least.
fn start(circuit: &Circuit, times: &Times) -> Option<usize> {
    let spare = circuit
        .non_inputs()
        .filter(|&component| times.slack(component) > 0);
    // `min_by_key` keeps the first of equals.
    spare.min_by_key(|&component| times.slack(component))
}

/// Walks backward and then forward from the start; the order of the walks makes no difference.
fn find_segment(
    circuit: &Circuit,
    delays: &[i64],
    times: &Times,
    start: usize,
    segment: &mut Vec<usize>,
) {
    let fits_both = |before, after| fits(times, delays, before, after) == (true, true);
    segment.clear();
    segment.push(start);
    let mut first = start;
    let driver = |at: usize| {
        let mut before = circuit.fan_in(at).iter().copied();
        before.find(|&from| !circuit.is_input(from) && fits_both(from, at))
    };
    while let Some(before) = driver(first) {
        segment.push(before);
        first = before;
    }
    segment.reverse();
    let mut last = start;
    let driven = |at: usize| {
        circuit
            .fan_out(at)
            .iter()
            .copied()
            .find(|&to| fits_both(at, to))
    };
    while let Some(after) = driven(last) {
        segment.push(after);
        last = after;
    }
}

fn fits(times: &Times, delays: &[i64], before: usize, after: usize) -> (bool, bool) {
    let delay = delays[after];
    let by_required = times.required[after] == times.required[before] + delay;
    let by_arrival = times.arrival[after] == times.arrival[before] + delay;
    (by_required, by_arrival)
}

/// Each gets the slack still to be given, divided by the components still to serve.
fn give(delays: &mut [i64], segment: &[usize], slack: i64) {
    let mut left = slack;
    for (served, &component) in segment.iter().enumerate() {
        let part = left / (segment.len() - served) as i64;
        delays[component] += part;
        left -= part;
    }
}
