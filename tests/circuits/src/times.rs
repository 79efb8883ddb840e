//! Arrivals at base delays, which the generator needs to choose required times near them.

use crate::netlist::{Kind, Netlist};

pub fn arrivals(netlist: &Netlist) -> Vec<i64> {
    let is_input = |at: usize| netlist.parts[at].kind == Kind::Input;
    let start = |at: usize| {
        if is_input(at) {
            i64::from(netlist.parts[at].time)
        } else {
            i64::MIN
        }
    };
    let mut arrivals: Vec<i64> = (0..netlist.parts.len()).map(start).collect();
    // Wires rise by their upper end, so that a lower end is complete when it is used.
    for &(to, from) in &netlist.wires {
        let base = i64::from(netlist.parts[usize::from(to)].base);
        let by_this_wire = arrivals[usize::from(from)] + base;
        let latest = &mut arrivals[usize::from(to)];
        *latest = by_this_wire.max(*latest);
    }
    arrivals
}
