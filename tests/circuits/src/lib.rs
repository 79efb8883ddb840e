//! Circuits to test with: the three worked by hand, and generated ones from a seed.

mod generate;
mod netlist;
mod random;
mod times;
mod wiring;
pub mod worked;

pub use generate::{circuit, full_size, Delays, Scale, Size, Spare};
pub use netlist::{component_record, connection_record, Kind, Netlist, Part};
pub use random::Random;
pub use wiring::Shape;
