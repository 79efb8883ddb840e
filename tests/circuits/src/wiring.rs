//! The shapes of generated circuits: which kinds in which order, and which wires.

use std::collections::BTreeSet;

use crate::netlist::Kind;
use crate::random::Random;

#[derive(Clone, Copy, Debug, PartialEq, Eq)]
pub enum Shape {
    /// A few long chains, with a wire across now and then.
    Chains,
    /// Many inputs and outputs, and short paths.
    Wide,
    /// Layers, each wired to the layer before it: paths part and meet again.
    Reconvergent,
    /// Anything the rules allow.
    Any,
}

impl Shape {
    pub const ALL: [Shape; 4] = [Shape::Chains, Shape::Wide, Shape::Reconvergent, Shape::Any];
}

/// The wires as (to, from).
pub type Wires = BTreeSet<(u16, u16)>;

/// Kinds for `count` components, at least two: the first is an input and the last an output.
pub fn kinds(random: &mut Random, shape: Shape, count: usize) -> Vec<Kind> {
    let inputs = match shape {
        Shape::Chains => 1 + random.below(3),
        Shape::Wide => count / 3 + 1,
        Shape::Reconvergent => 1 + random.below(width(count)),
        Shape::Any => 1,
    };
    let kind_at = |at: usize, random: &mut Random| match shape {
        _ if at == 0 => Kind::Input,
        _ if at + 1 == count => Kind::Output,
        Shape::Any => random.pick(&[
            Kind::Input,
            Kind::Inner,
            Kind::Inner,
            Kind::Inner,
            Kind::Output,
        ]),
        _ if at < inputs => Kind::Input,
        Shape::Wide if at > 2 * count / 3 => Kind::Output,
        Shape::Wide => Kind::Inner,
        _ if at + 4 > count && random.one_in(2) => Kind::Output,
        _ => Kind::Inner,
    };
    (0..count).map(|at| kind_at(at, random)).collect()
}

/// Wires that satisfy the rules for ends, and up to `wanted` wires in all where there is room.
pub fn wires(random: &mut Random, shape: Shape, kinds: &[Kind], wanted: usize) -> Wires {
    let mut wires = Wires::new();
    for to in 1..kinds.len() {
        if kinds[to] != Kind::Input {
            wires.insert((to as u16, driver(random, shape, kinds, to) as u16));
        }
    }
    complete_fan_outs(random, shape, kinds, &mut wires);
    // Small circuits may not have that many wires, so the tries are bounded.
    for _ in 0..wanted * 8 {
        if wires.len() >= wanted {
            break;
        }
        let to = 1 + random.below(kinds.len() - 1);
        if kinds[to] != Kind::Input {
            wires.insert((to as u16, driver(random, shape, kinds, to) as u16));
        }
    }
    wires
}

/// Every component that is not an output drives something.
fn complete_fan_outs(random: &mut Random, shape: Shape, kinds: &[Kind], wires: &mut Wires) {
    let mut drives = vec![false; kinds.len()];
    for &(_, from) in wires.iter() {
        drives[usize::from(from)] = true;
    }
    for from in 0..kinds.len() {
        if kinds[from] != Kind::Output && !drives[from] {
            wires.insert((driven(random, shape, kinds, from) as u16, from as u16));
        }
    }
}

/// Some component below `to` which may drive it; component 0 always may.
fn driver(random: &mut Random, shape: Shape, kinds: &[Kind], to: usize) -> usize {
    let reach = reach(random, shape, kinds.len());
    for _ in 0..8 {
        let from = to - 1 - random.below(reach.min(to));
        if kinds[from] != Kind::Output {
            return from;
        }
    }
    (0..to)
        .rev()
        .find(|&from| kinds[from] != Kind::Output)
        .unwrap_or(0)
}

/// Some component above `from` which it may drive; the last always may be.
fn driven(random: &mut Random, shape: Shape, kinds: &[Kind], from: usize) -> usize {
    let above = kinds.len() - 1 - from;
    let reach = reach(random, shape, kinds.len());
    for _ in 0..8 {
        let to = from + 1 + random.below(reach.min(above));
        if kinds[to] != Kind::Input {
            return to;
        }
    }
    kinds.len() - 1
}

/// How far a wire may reach.
fn reach(random: &mut Random, shape: Shape, count: usize) -> usize {
    match shape {
        Shape::Chains if !random.one_in(12) => 1 + random.below(3),
        Shape::Reconvergent => 2 * width(count),
        _ => count,
    }
}

/// The width of a layer.
fn width(count: usize) -> usize {
    (count / 8).clamp(2, 24)
}
