//! Counts what happens in rounds, so that a test can show that it met every turn of the rules.

use crate::rounds::{Round, Watch};

#[derive(Clone, Copy, Debug, Default)]
pub struct Events {
    pub rounds: u64,
    /// How many components the last round's circuit has to serve.
    pub to_serve: u64,
    /// Rounds with several components of the least slack to start at.
    pub start_ties: u64,
    /// Steps with several fan-outs that fit both equalities.
    pub forward_ties: u64,
    /// Steps of backward walks. A fan-in that fits both equalities has the slack of the start and a
    /// lower number, so the round would have started there: there are none.
    pub backward_steps: u64,
    /// Forward walks that ended where some fan-out fits one equality only, by which one.
    pub forward_stops_required: u64,
    pub forward_stops_arrival: u64,
    /// The same for backward walks and non-input fan-ins.
    pub backward_stops_required: u64,
    pub backward_stops_arrival: u64,
    /// Walks that would have gone on to an input.
    pub stops_before_input: u64,
    /// Rounds whose slack was not divided evenly.
    pub uneven: u64,
}

impl Watch for Events {
    fn round(&mut self, round: &Round) {
        self.rounds += 1;
        self.to_serve = round.circuit.non_inputs().count() as u64;
        self.start_ties += u64::from(least_slack_count(round) > 1);
        let slack = round.times.slack(round.start);
        self.uneven += u64::from(slack % round.segment.len() as i64 != 0);
        self.forward(round);
        self.backward(round);
    }
}

impl Events {
    fn forward(&mut self, round: &Round) {
        for &at in round.segment.iter().skip_while(|&&at| at != round.start) {
            let found = look(
                round
                    .circuit
                    .fan_out(at)
                    .iter()
                    .map(|&to| round.fits(at, to)),
            );
            self.forward_ties += u64::from(found.both > 1);
            self.forward_stops_required += found.stops_by_required();
            self.forward_stops_arrival += found.stops_by_arrival();
        }
    }

    fn backward(&mut self, round: &Round) {
        for &at in round
            .segment
            .iter()
            .rev()
            .skip_while(|&&at| at != round.start)
        {
            let before = round.circuit.fan_in(at).iter().copied();
            let inner = before.clone().filter(|&from| !round.circuit.is_input(from));
            let found = look(inner.map(|from| round.fits(from, at)));
            self.backward_steps += u64::from(found.both > 0);
            self.backward_stops_required += found.stops_by_required();
            self.backward_stops_arrival += found.stops_by_arrival();
            let all = look(before.map(|from| round.fits(from, at)));
            self.stops_before_input += u64::from(found.both == 0 && all.both > 0);
        }
    }
}

fn least_slack_count(round: &Round) -> usize {
    let least = round.times.slack(round.start);
    let equals = |&component: &usize| round.times.slack(component) == least;
    round.circuit.non_inputs().filter(equals).count()
}

/// How many neighbours fit both equalities, only the required one, only the arrival one.
#[derive(Default)]
struct Found {
    both: u64,
    required: u64,
    arrival: u64,
}

impl Found {
    fn stops_by_required(&self) -> u64 {
        u64::from(self.both == 0 && self.required > 0)
    }

    fn stops_by_arrival(&self) -> u64 {
        u64::from(self.both == 0 && self.arrival > 0)
    }
}

fn look(neighbours: impl Iterator<Item = (bool, bool)>) -> Found {
    let mut found = Found::default();
    for fit in neighbours {
        match fit {
            (true, true) => found.both += 1,
            (true, false) => found.required += 1,
            (false, true) => found.arrival += 1,
            (false, false) => {}
        }
    }
    found
}
