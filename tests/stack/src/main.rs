//! Measures how much stack each call needs at full size, and compares that with the header.
//!
//! The bridge covers its stack with paint before a call. The lowest byte that is no longer paint
//! tells how deep the call went. The first call of a process goes deeper where the C library's
//! functions are bound when they are first used, so each is made twice, in a process of its own.

use std::process::ExitCode;
use std::thread;

use calls::Request;
use circuits::{Random, Shape};

const NUMBERS: [u8; 4 * 1_024] = [0; 4 * 1_024];
const BYTES: [u8; 10 + 13 * 1_023] = [0; 10 + 13 * 1_023];

/// A call on a netlist, and the bytes of stack which the header names for it.
type Case = (&'static str, fn(&[u8]) -> Depth, u64);

const CASES: [Case; 3] = [
    ("analyse", analyse, 49_152),
    ("budget", budget, 61_440),
    ("read back", read_back, 36_864),
];

/// How deep a call goes, and how deep where it is the first of its process.
#[derive(Clone, Copy, Default)]
struct Depth {
    call: u64,
    first: u64,
}

impl Depth {
    fn deeper(self, other: Depth) -> Depth {
        Depth {
            call: self.call.max(other.call),
            first: self.first.max(other.first),
        }
    }
}

fn main() -> ExitCode {
    let mut random = Random::new(1989);
    let netlists = Shape::ALL.map(|shape| circuits::full_size(&mut random, shape).file());
    println!("bytes of stack below the caller's frame, the deepest of four full-size circuits");
    println!("measuring alone takes {}", painted(Request::none()));
    let mut failed = 0;
    for (name, measure, named) in CASES {
        let depths = netlists.iter().map(|netlist| measure(netlist));
        let Depth { call, first } = depths.fold(Depth::default(), Depth::deeper);
        let fits = call.max(first) <= named;
        failed += usize::from(!fits);
        let score = if fits { "passed" } else { "FAILED" };
        println!("  {score}  {name:<9} {call:>7}, as the first {first:>7}, the header says {named}");
    }
    println!("{} passed, {failed} failed", CASES.len() - failed);
    if failed == 0 {
        ExitCode::SUCCESS
    } else {
        ExitCode::FAILURE
    }
}

fn analyse(netlist: &[u8]) -> Depth {
    depth(Request::analyse(netlist, &NUMBERS))
}

/// The deeper of the two modes.
fn budget(netlist: &[u8]) -> Depth {
    let [plain, even] = [0, 1].map(|mode| depth(Request::budget(mode, netlist, &BYTES)));
    plain.deeper(even)
}

fn read_back(netlist: &[u8]) -> Depth {
    let budget = calls::budget(0, netlist, &BYTES);
    // The circuits have several inputs, so the result does not fill the buffer.
    let result = &budget.contents[..budget.answer as usize];
    depth(Request::read_back(netlist, result, &NUMBERS))
}

/// A thread starts a bridge of its own.
fn depth(request: Request) -> Depth {
    let twice = || [painted(request), painted(request)];
    let [first, call] = thread::scope(|scope| scope.spawn(twice).join()).expect("a bridge");
    Depth { call, first }
}

fn painted(request: Request) -> u64 {
    let (outcome, depth) = request.make_on_paint();
    assert_eq!(outcome.answer >> 32, 0, "the call must go all the way");
    depth
}
