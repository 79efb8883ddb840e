//! A budget: the share, the rounds, and what every component's delay comes to.

use crate::answer::Refusal;
use crate::circuit::Circuit;
use crate::rounds::{self, Watch};
use crate::share;
use crate::times::{self, Times};

#[derive(Debug)]
pub struct Budget {
    pub mode: u8,
    pub share: i64,
    pub rounds: usize,
    /// Final delays, by component; an input's is 0.
    pub delays: Vec<i64>,
}

impl Budget {
    pub fn increment(&self, circuit: &Circuit, component: usize) -> i64 {
        self.delays[component] - circuit.components[component].base
    }
}

/// The budget of a circuit in mode 0 (plain) or 1 (even).
pub fn plan(circuit: &Circuit, mode: u8) -> Result<Budget, Refusal> {
    plan_watched(circuit, mode, &mut ())
}

pub fn plan_watched(
    circuit: &Circuit,
    mode: u8,
    watch: &mut impl Watch,
) -> Result<Budget, Refusal> {
    let mut delays = circuit.base_delays();
    times::judge(circuit, &Times::of(circuit, &delays))?;
    let share = if mode == 1 { share::share(circuit) } else { 0 };
    for component in circuit.non_inputs() {
        delays[component] += share;
    }
    let rounds = rounds::spend(circuit, &mut delays, watch);
    Ok(Budget {
        mode,
        share,
        rounds,
        delays,
    })
}
