//! Measures the library against the model: twenty circuits of full size, in both modes.
//!
//! The two take turns within one run, so that a change of the machine's speed meets both. The
//! library's time is taken in the bridge, around the call alone.

use std::env::consts::ARCH;
use std::time::{Duration, Instant};

use calls::Request;
use circuits::{Random, Shape};

const CIRCUITS: usize = 20;
/// Of so many turns the shortest counts.
const TURNS: usize = 5;
/// So many calls make a turn; their mean is its time.
const CALLS: u32 = 3;
const ROOM: usize = 10 + 13 * 1_024;

fn main() {
    head();
    let mut random = Random::new(1989);
    let mut ratios = Vec::new();
    for at in 0..CIRCUITS {
        let shape = Shape::ALL[at % Shape::ALL.len()];
        let netlist = circuits::full_size(&mut random, shape).file();
        for mode in [0, 1] {
            print!("{at:>7} {:<13} {mode:>4}", format!("{shape:?}"));
            ratios.push(measure(mode, &netlist));
        }
    }
    ratios.sort_by(f64::total_cmp);
    let middle = (ratios[CIRCUITS - 1] + ratios[CIRCUITS]) / 2.0;
    let (least, greatest) = (ratios[0], ratios[2 * CIRCUITS - 1]);
    println!("ratio of library to model: median {middle:.2}, from {least:.2} to {greatest:.2}");
    warn();
}

fn head() {
    println!("budget, library against model, {TURNS} turns each in alternation, shortest counts");
    println!("a turn is the mean of {CALLS} calls");
    println!("circuits of 1,024 components and 4,096 connections");
    println!("buffers cleared before every call, outside the time measured");
    warn();
    println!("circuit shape         mode rounds  library us    model us   ratio");
}

/// The library is x86-64 code, and the model is compiled for the machine it runs on.
fn warn() {
    if ARCH != "x86_64" {
        println!("this machine is {ARCH}: the library runs EMULATED and the model does not,");
        println!("so the ratio says nothing about the library's speed on x86-64");
    }
}

/// The library's shortest time divided by the model's.
fn measure(mode: u32, netlist: &[u8]) -> f64 {
    let mut shortest = [Duration::MAX; 2];
    let mut rounds = 0;
    for _ in 0..TURNS {
        let (library, library_time) = library(mode, netlist);
        let (model, model_time) = model(mode, netlist);
        assert!(
            library == model,
            "the two must agree before their times are compared"
        );
        rounds = u16::from_be_bytes([model[8], model[9]]);
        shortest = [shortest[0].min(library_time), shortest[1].min(model_time)];
    }
    let [library, model] = shortest.map(|time| time.as_secs_f64() * 1e6);
    let ratio = library / model;
    println!(" {rounds:>6} {library:>11.0} {model:>11.0} {ratio:>7.2}");
    ratio
}

fn library(mode: u32, netlist: &[u8]) -> (Vec<u8>, Duration) {
    let (outcome, time) = Request::budget(mode, netlist, &[0; ROOM]).make_timed(CALLS);
    (outcome.contents, time / CALLS)
}

fn model(mode: u32, netlist: &[u8]) -> (Vec<u8>, Duration) {
    let mut buffer = vec![0; ROOM];
    let mut sum = Duration::ZERO;
    for _ in 0..CALLS {
        buffer.fill(0);
        let start = Instant::now();
        let answer = model::budget(mode, netlist, &mut buffer);
        sum += start.elapsed();
        assert!(answer.is_ok(), "the circuits are in time");
    }
    (buffer, sum / CALLS)
}
