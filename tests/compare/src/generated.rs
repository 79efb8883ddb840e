//! Generated circuits of all shapes and sizes, in all modes.

use circuits::{Delays, Scale, Shape, Size, Spare};

use crate::checker::Checker;
use crate::tries;

const DELAYS: [Delays; 6] = [
    Delays::Zero,
    Delays::Same(1),
    Delays::Same(7),
    Delays::Same(65_535),
    Delays::UpTo(3),
    Delays::UpTo(65_535),
];

const SPARES: [Spare; 9] = [
    Spare::Same(0),
    Spare::Same(1),
    Spare::Same(12),
    Spare::UpTo(5),
    Spare::UpTo(1_000),
    Spare::UpTo(100_000_000),
    Spare::Latest,
    Spare::OneLate,
    Spare::Anything,
];

pub fn check(checker: &mut Checker) {
    for shape in Shape::ALL {
        let name = format!("{shape:?} circuits, small, all delays and times");
        checker.group(&name, |checker| all_rules(checker, shape));
    }
    checker.group("circuits of 50 to 300 components", middling);
    checker.group(
        "circuits of 1,024 components and 4,096 connections",
        full_size,
    );
}

fn all_rules(checker: &mut Checker, shape: Shape) {
    for delays in DELAYS {
        for scale in Scale::ALL {
            for spare in SPARES {
                for most in [4, 6, 8, 12, 24, 40] {
                    let components = 2 + checker.random.below(most - 1);
                    let connections = checker.random.below(3 * components);
                    let size = Size {
                        components,
                        connections,
                    };
                    let rules = (delays, scale, spare);
                    let netlist = circuits::circuit(&mut checker.random, (shape, size), rules);
                    tries::circuit(checker, &netlist);
                }
            }
        }
    }
}

fn middling(checker: &mut Checker) {
    for _ in 0..300 {
        let components = 50 + checker.random.below(251);
        let connections = checker.random.below(4 * components);
        let size = Size {
            components,
            connections,
        };
        any_rules(checker, size);
    }
}

fn full_size(checker: &mut Checker) {
    for shape in Shape::ALL {
        for spare in [
            Spare::Same(1),
            Spare::UpTo(60_000),
            Spare::UpTo(100_000_000),
        ] {
            let rules = (Delays::UpTo(2_000), Scale::Near, spare);
            let netlist = circuits::circuit(&mut checker.random, (shape, Size::FULL), rules);
            checker.expect("components", netlist.parts.len(), 1_024);
            checker.expect("connections", netlist.wires.len(), 4_096);
            tries::circuit(checker, &netlist);
        }
    }
    for _ in 0..20 {
        any_rules(checker, Size::FULL);
    }
}

fn any_rules(checker: &mut Checker, size: Size) {
    let random = &mut checker.random;
    let shape = random.pick(&Shape::ALL);
    let rules = (
        random.pick(&DELAYS),
        random.pick(&Scale::ALL),
        random.pick(&SPARES),
    );
    let netlist = circuits::circuit(random, (shape, size), rules);
    tries::circuit(checker, &netlist);
}
