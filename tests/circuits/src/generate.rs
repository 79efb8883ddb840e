//! Generated circuits: a shape, a size, and rules for delays and times.

use crate::netlist::{Kind, Netlist, Part};
use crate::random::Random;
use crate::times::arrivals;
use crate::wiring::{self, Shape};

const LATEST: i64 = 100_000_000;

#[derive(Clone, Copy, Debug)]
pub struct Size {
    pub components: usize,
    /// As many as fit, if the circuit has not room for these.
    pub connections: usize,
}

impl Size {
    pub const FULL: Size = Size {
        components: 1_024,
        connections: 4_096,
    };
}

/// How long base delays are.
#[derive(Clone, Copy, Debug)]
pub enum Delays {
    Zero,
    /// All the same, which makes ties.
    Same(u32),
    UpTo(u32),
}

/// Where arrivals lie.
#[derive(Clone, Copy, Debug)]
pub enum Scale {
    Zero,
    Near,
    Negative,
    Earliest,
    Anywhere,
}

impl Scale {
    pub const ALL: [Scale; 5] = [
        Scale::Zero,
        Scale::Near,
        Scale::Negative,
        Scale::Earliest,
        Scale::Anywhere,
    ];
}

/// How far required times lie behind the arrivals at base delays.
#[derive(Clone, Copy, Debug)]
pub enum Spare {
    /// The same for all outputs; 0 leaves the circuit just in time.
    Same(i64),
    UpTo(i64),
    /// At the latest time there is.
    Latest,
    /// One output is late, by one.
    OneLate,
    /// Times that have nothing to do with the arrivals.
    Anything,
}

/// A circuit which the rules accept, though it may be late.
pub fn circuit(
    random: &mut Random,
    (shape, size): (Shape, Size),
    (delays, scale, spare): (Delays, Scale, Spare),
) -> Netlist {
    let kinds = wiring::kinds(random, shape, size.components);
    let wires = wiring::wires(random, shape, &kinds, size.connections);
    let part = |kind, random: &mut Random| match kind {
        Kind::Input => Part {
            kind,
            base: 0,
            time: arrival(random, scale),
        },
        _ => Part {
            kind,
            base: base(random, delays),
            time: 0,
        },
    };
    let parts = kinds.iter().map(|&kind| part(kind, random)).collect();
    let mut netlist = Netlist {
        parts,
        wires: wires.into_iter().collect(),
    };
    set_required(random, &mut netlist, spare);
    netlist
}

/// A circuit of full size that is in time and has slack to give.
pub fn full_size(random: &mut Random, shape: Shape) -> Netlist {
    let rules = (Delays::UpTo(2_000), Scale::Near, Spare::UpTo(60_000));
    circuit(random, (shape, Size::FULL), rules)
}

fn base(random: &mut Random, delays: Delays) -> u32 {
    match delays {
        Delays::Zero => 0,
        Delays::Same(base) => base,
        Delays::UpTo(most) => random.within(0, i64::from(most)) as u32,
    }
}

fn arrival(random: &mut Random, scale: Scale) -> i32 {
    let time = match scale {
        Scale::Zero => 0,
        Scale::Near => random.within(0, 30),
        Scale::Negative => random.within(-1_000, -1),
        Scale::Earliest => -LATEST,
        Scale::Anywhere => random.within(-LATEST, LATEST),
    };
    time as i32
}

fn set_required(random: &mut Random, netlist: &mut Netlist, spare: Spare) {
    let arrivals = arrivals(netlist);
    let outputs: Vec<usize> = (0..arrivals.len())
        .filter(|&at| netlist.parts[at].kind == Kind::Output)
        .collect();
    let late = random.pick(&outputs);
    for at in outputs {
        let time = match spare {
            Spare::Same(spare) => arrivals[at] + spare,
            Spare::UpTo(most) => arrivals[at] + random.within(0, most),
            Spare::Latest => LATEST,
            Spare::OneLate if at == late => arrivals[at] - 1,
            Spare::OneLate => arrivals[at] + random.within(0, 9),
            Spare::Anything => random.within(-LATEST, LATEST),
        };
        netlist.parts[at].time = time.clamp(-LATEST, LATEST) as i32;
    }
}
