//! Arrival and required times for given delays.

use crate::answer::{number, Refusal};
use crate::circuit::{Circuit, Kind};

#[derive(Debug)]
pub struct Times {
    pub arrival: Vec<i64>,
    pub required: Vec<i64>,
}

impl Times {
    pub fn of(circuit: &Circuit, delays: &[i64]) -> Times {
        let count = circuit.len();
        let mut times = Times {
            arrival: vec![0; count],
            required: vec![0; count],
        };
        times.work_out(circuit, delays);
        times
    }

    /// Works all times out again, in the same vectors.
    pub fn work_out(&mut self, circuit: &Circuit, delays: &[i64]) {
        for (component, &delay) in delays.iter().enumerate() {
            let before = circuit.fan_in(component).iter();
            self.arrival[component] = match before.map(|&from| self.arrival[from]).max() {
                Some(latest) => latest + delay,
                None => circuit.components[component].time,
            };
        }
        for component in (0..circuit.len()).rev() {
            let after = circuit.fan_out(component).iter();
            let earliest = after.map(|&to| self.required[to] - delays[to]).min();
            self.required[component] = earliest.unwrap_or(circuit.components[component].time);
        }
    }

    pub fn slack(&self, component: usize) -> i64 {
        self.required[component] - self.arrival[component]
    }
}

/// LATE at the lowest output with negative slack.
pub fn judge(circuit: &Circuit, times: &Times) -> Result<(), Refusal> {
    let is_output = |component: usize| circuit.components[component].kind == Kind::Output;
    let late = |component| is_output(component) && times.slack(component) < 0;
    match (0..circuit.len()).find(|&component| late(component)) {
        Some(output) => Err(Refusal::new(number::LATE, output)),
        None => Ok(()),
    }
}
