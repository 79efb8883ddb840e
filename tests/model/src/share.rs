//! The share: the largest whole number that every non-input can be slowed by at once.
//!
//! Found from above. Begin with a share that is surely not too small; as long as some path is late
//! with it, no share above that path's slack divided by its length can do, so go there. A path that
//! is late gives a smaller number each time, and the first share with no late path is the answer.

use crate::circuit::{Circuit, Kind};

/// The longest way to a component: its time without the share, and how many take the share.
#[derive(Clone, Copy)]
struct Way {
    time: i64,
    count: i64,
}

impl Way {
    fn with(self, share: i64) -> i64 {
        self.time + self.count * share
    }
}

/// The share of a circuit that is in time.
pub fn share(circuit: &Circuit) -> i64 {
    let mut ways = vec![Way { time: 0, count: 0 }; circuit.len()];
    // With share 0 the ways are the longest at base delays; every path has one that takes it.
    longest(circuit, 0, &mut ways);
    let mut share = outputs(circuit)
        .map(|output| left(circuit, &ways, output))
        .min()
        .unwrap_or(0);
    loop {
        longest(circuit, share, &mut ways);
        let over = |output: usize| left(circuit, &ways, output) - ways[output].count * share;
        match outputs(circuit).min_by_key(|&output| over(output)) {
            Some(worst) if over(worst) < 0 => {
                share = left(circuit, &ways, worst) / ways[worst].count;
            }
            _ => return share,
        }
    }
}

/// Finds for each component the way to it that is longest with this share.
fn longest(circuit: &Circuit, share: i64, ways: &mut [Way]) {
    for component in 0..circuit.len() {
        let here = circuit.components[component];
        let before = circuit.fan_in(component).iter().map(|&from| ways[from]);
        ways[component] = match before.max_by_key(|way| way.with(share)) {
            Some(way) => Way {
                time: way.time + here.base,
                count: way.count + 1,
            },
            None => Way {
                time: here.time,
                count: 0,
            },
        };
    }
}

/// The slack, without the share, of the way found to an output.
fn left(circuit: &Circuit, ways: &[Way], output: usize) -> i64 {
    circuit.components[output].time - ways[output].time
}

fn outputs(circuit: &Circuit) -> impl Iterator<Item = usize> + '_ {
    (0..circuit.len()).filter(|&component| circuit.components[component].kind == Kind::Output)
}
