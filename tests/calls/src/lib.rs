//! The library's three calls, made by a C program which runs beside the tests: the bridge.
//!
//! The library is x86-64 code, while the tests may run on another machine, where the bridge is
//! emulated. It lends every slice from the middle of a larger one, whose other bytes must stay as
//! they were.

mod bridge;
mod command;
mod earlier;
mod request;

pub use command::{command, run};
pub use earlier::same;
pub use request::Request;

/// What a call did: its answer, and the buffer it was lent as it stands after the call.
#[derive(Debug, PartialEq, Eq)]
pub struct Outcome {
    pub answer: u64,
    pub contents: Vec<u8>,
    /// Whether all that the call had no right to change is unchanged.
    pub kept: bool,
}

/// Lends a buffer that holds `prior`.
pub fn analyse(netlist: &[u8], prior: &[u8]) -> Outcome {
    Request::analyse(netlist, prior).make()
}

/// Lends a buffer that holds `prior`.
pub fn budget(mode: u32, netlist: &[u8], prior: &[u8]) -> Outcome {
    Request::budget(mode, netlist, prior).make()
}

/// Lends a buffer that holds `prior`.
pub fn read_back(netlist: &[u8], result: &[u8], prior: &[u8]) -> Outcome {
    Request::read_back(netlist, result, prior).make()
}
