//! The library's algorithm as it is written in Rust without contracts: tables in vectors, rows in enums, and checks of
//! indices where the language makes them. The benchmark compares the library with it.

mod blocks;
mod carried;
mod circuit;
mod in_place;
mod judging;
mod kinds;
mod sweeps;
mod tally;

pub use circuit::Circuit;
pub use judging::judge;
pub use tally::{Counted, Tally, Uncounted};
