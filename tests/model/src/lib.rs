//! A second, plain implementation of delay budgeting, written from the rules alone.
//!
//! It shares no code with the library. The tests compare the two on many inputs, and the
//! benchmark measures the library against it. It keeps a circuit in vectors with an index of the
//! fan-in and the fan-out of each component, and works the times out afresh in each round.

mod answer;
mod budget;
mod calls;
mod circuit;
mod decode;
mod ends;
mod events;
mod limits;
mod read_back;
mod records;
mod result_file;
mod rounds;
mod share;
mod times;

pub use answer::{number, packed, Answer, Refusal};
pub use budget::{plan, plan_watched, Budget};
pub use calls::{analyse, budget, budget_watched, read_back};
pub use circuit::{Circuit, Component, Kind};
pub use decode::decode;
pub use events::Events;
pub use rounds::{Round, Watch};
pub use times::Times;
