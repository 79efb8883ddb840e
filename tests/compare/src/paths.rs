//! Checks the model itself on small circuits, against all paths one by one.

use circuits::{Delays, Random, Scale, Shape, Size, Spare};
use model::{Circuit, Kind, Times};

use crate::checker::Checker;

/// A path as its components, from an input to an output.
type Path = Vec<usize>;

pub fn check(checker: &mut Checker) {
    checker.group(
        "the model against all paths of 600 small circuits",
        |checker| {
            for _ in 0..600 {
                let file = small(&mut checker.random).file();
                match model::decode(&file) {
                    Ok(circuit) => against_paths(checker, &circuit),
                    Err(refusal) => checker.fail(|| format!("refused: {refusal:?}")),
                }
            }
        },
    );
}

fn small(random: &mut Random) -> circuits::Netlist {
    let size = Size {
        components: 2 + random.below(9),
        connections: random.below(20),
    };
    let shape = random.pick(&Shape::ALL);
    let delays = random.pick(&[Delays::Zero, Delays::Same(2), Delays::UpTo(9)]);
    let spare = random.pick(&[
        Spare::Same(0),
        Spare::Same(7),
        Spare::UpTo(40),
        Spare::Anything,
    ]);
    circuits::circuit(random, (shape, size), (delays, Scale::Near, spare))
}

fn against_paths(checker: &mut Checker, circuit: &Circuit) {
    let paths = paths(circuit);
    let base = circuit.base_delays();
    slacks_are_least(checker, circuit, &paths, &base);
    let in_time = paths.iter().all(|path| slack(circuit, path, &base) >= 0);
    for mode in [0, 1] {
        match model::plan(circuit, mode) {
            Ok(budget) => {
                checker.expect("in time", in_time, true);
                share_is_largest(checker, circuit, &paths, &budget);
                slacks_are_least(checker, circuit, &paths, &budget.delays);
                slack_is_spent(checker, circuit, &paths, &budget);
            }
            Err(_) => checker.expect("late", in_time, false),
        }
    }
}

/// A component's slack is the least among the paths through it.
fn slacks_are_least(checker: &mut Checker, circuit: &Circuit, paths: &[Path], delays: &[i64]) {
    let times = Times::of(circuit, delays);
    for component in 0..circuit.len() {
        let through = paths.iter().filter(|path| path.contains(&component));
        let least = through.map(|path| slack(circuit, path, delays)).min();
        checker.expect("slack", Some(times.slack(component)), least);
    }
}

fn share_is_largest(
    checker: &mut Checker,
    circuit: &Circuit,
    paths: &[Path],
    budget: &model::Budget,
) {
    if budget.mode == 0 {
        return checker.expect("share in plain mode", budget.share, 0);
    }
    let base = circuit.base_delays();
    let fits = |share: i64| {
        let after = |path: &Path| slack(circuit, path, &base) - share * (path.len() as i64 - 1);
        paths.iter().all(|path| after(path) >= 0)
    };
    checker.expect("share fits", fits(budget.share), true);
    checker.expect("one more does not", fits(budget.share + 1), false);
}

/// No path is late, and no non-input has slack left.
fn slack_is_spent(
    checker: &mut Checker,
    circuit: &Circuit,
    paths: &[Path],
    budget: &model::Budget,
) {
    let times = Times::of(circuit, &budget.delays);
    let spent = circuit
        .non_inputs()
        .all(|component| times.slack(component) == 0);
    checker.expect("slack spent", spent, true);
    let late = paths
        .iter()
        .any(|path| slack(circuit, path, &budget.delays) < 0);
    checker.expect("late after budgeting", late, false);
    let none_shrinks = circuit
        .non_inputs()
        .all(|at| budget.increment(circuit, at) >= budget.share);
    checker.expect("each has its share", none_shrinks, true);
    checker.expect(
        "rounds",
        budget.rounds <= circuit.non_inputs().count(),
        true,
    );
}

/// The output's time, less the input's time, less the delays between.
fn slack(circuit: &Circuit, path: &Path, delays: &[i64]) -> i64 {
    let (first, last) = (path[0], path[path.len() - 1]);
    let way: i64 = path[1..].iter().map(|&component| delays[component]).sum();
    circuit.components[last].time - circuit.components[first].time - way
}

fn paths(circuit: &Circuit) -> Vec<Path> {
    let inputs = (0..circuit.len()).filter(|&component| circuit.is_input(component));
    let mut open: Vec<Path> = inputs.map(|input| vec![input]).collect();
    let mut done = Vec::new();
    while let Some(path) = open.pop() {
        let last = path[path.len() - 1];
        if circuit.components[last].kind == Kind::Output {
            done.push(path);
            continue;
        }
        for &to in circuit.fan_out(last) {
            open.push(path.iter().copied().chain([to]).collect());
        }
    }
    done
}
