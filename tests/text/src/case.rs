//! A circuit to try: as an encoder writes it, as a person might, and as the model knows it.

use circuits::{worked, Delays, Netlist, Random, Scale, Shape, Size, Spare};
use model::{number, Budget, Circuit, Times};

use crate::names;
use crate::writer;

const DELAYS: [Delays; 6] = [
    Delays::Zero,
    Delays::Same(1),
    Delays::Same(7),
    Delays::Same(65_535),
    Delays::UpTo(9),
    Delays::UpTo(65_535),
];

const SPARES: [Spare; 7] = [
    Spare::Same(0),
    Spare::Same(12),
    Spare::UpTo(1_000),
    Spare::UpTo(100_000_000),
    Spare::Latest,
    Spare::OneLate,
    Spare::Anything,
];

pub struct Case {
    pub label: String,
    pub netlist: Netlist,
    pub names: Vec<String>,
    pub text: Vec<u8>,
    /// What `pack` has to make of the text.
    pub file: Vec<u8>,
    pub circuit: Circuit,
    pub slacks: Vec<i64>,
    /// In plain and in even mode; a late circuit has none.
    pub budgets: Option<[Budget; 2]>,
}

impl Case {
    fn new(random: &mut Random, label: String, netlist: Netlist) -> Case {
        let names = names::distinct(random, netlist.parts.len());
        let text = writer::text(random, &netlist, &names);
        let file = netlist.file();
        let circuit = model::decode(&file).unwrap_or_else(|refusal| {
            panic!("{label}: circuits are made to be accepted, but {refusal:?}")
        });
        let times = Times::of(&circuit, &circuit.base_delays());
        let slacks = (0..circuit.len()).map(|at| times.slack(at)).collect();
        let budgets = budgets(&circuit);
        Case {
            label,
            netlist,
            names,
            text,
            file,
            circuit,
            slacks,
            budgets,
        }
    }

    /// The least slack of all; a circuit has a component at least.
    pub fn least_slack(&self) -> i64 {
        self.slacks.iter().copied().min().unwrap_or(0)
    }

    pub fn is_late(&self) -> bool {
        self.budgets.is_none()
    }
}

fn budgets(circuit: &Circuit) -> Option<[Budget; 2]> {
    match (model::plan(circuit, 0), model::plan(circuit, 1)) {
        (Ok(plain), Ok(even)) => Some([plain, even]),
        (Err(refusal), Err(_)) if refusal.number == number::LATE => None,
        both => panic!("a circuit has a budget or is late, but {both:?}"),
    }
}

pub fn worked(random: &mut Random) -> Vec<Case> {
    let circuits = [
        ("circuit A", worked::a()),
        ("circuit B with required time 10", worked::b(10)),
        ("circuit B with required time 9", worked::b(9)),
        ("circuit C", worked::c()),
    ];
    circuits
        .into_iter()
        .map(|(label, netlist)| Case::new(random, label.to_string(), netlist))
        .collect()
}

pub fn generated(random: &mut Random, turn: u64, count: u64) -> Case {
    let shape = random.pick(&Shape::ALL);
    let size = size(random, turn * 100 / count);
    let rules = (
        random.pick(&DELAYS),
        random.pick(&Scale::ALL),
        random.pick(&SPARES),
    );
    let label = format!("circuit {turn}, {shape:?}, {size:?}, {rules:?}");
    let netlist = circuits::circuit(random, (shape, size), rules);
    Case::new(random, label, netlist)
}

/// Small ones first, so that the first which fails is one to read; a few of full size at the end.
fn size(random: &mut Random, percent: u64) -> Size {
    let components = match percent {
        0..40 => 2 + random.below(7),
        40..85 => 5 + random.below(40),
        85..96 => 50 + random.below(150),
        _ => return Size::FULL,
    };
    Size {
        components,
        connections: random.below(3 * components),
    }
}
