//! The figures that are carried along paths, and the two kinds of them.

use super::circuit::Delays;

/// What is known of the paths to a node: there is none, their figure, or that their figures grow past every number.
#[derive(Clone, Copy, PartialEq, Eq, Debug)]
pub enum Arrival {
    NoPath,
    At(i64),
    NoEnd,
}

impl Arrival {
    /// The arrival after a step. A sum that would leave 64 bits stays at their end, as in the library.
    pub fn after(self, gain: i64) -> Arrival {
        match self {
            Arrival::At(figure) => Arrival::At(figure.saturating_add(gain)),
            _ => self,
        }
    }

    pub fn is_later_than(self, start: Arrival) -> bool {
        match (start, self) {
            (Arrival::At(here), Arrival::At(there)) => here < there,
            (_, Arrival::NoPath) | (Arrival::NoEnd, _) => false,
            _ => true,
        }
    }
}

/// Which of two figures that come together stays, and what paths start with and add.
pub trait Kind {
    fn pick(one: i64, other: i64) -> i64;

    fn start(earliest: i64, latest: i64) -> i64;

    fn delay(delays: Delays) -> i64;

    fn join(one: Arrival, other: Arrival) -> Arrival {
        match (one, other) {
            (Arrival::NoPath, arrival) | (arrival, Arrival::NoPath) => arrival,
            (Arrival::At(x), Arrival::At(y)) => Arrival::At(Self::pick(x, y)),
            _ => Arrival::NoEnd,
        }
    }
}

pub struct Latest;

pub struct Earliest;

impl Kind for Latest {
    fn pick(one: i64, other: i64) -> i64 {
        one.max(other)
    }

    fn start(_earliest: i64, latest: i64) -> i64 {
        latest
    }

    fn delay(delays: Delays) -> i64 {
        delays.greatest
    }
}

impl Kind for Earliest {
    fn pick(one: i64, other: i64) -> i64 {
        one.min(other)
    }

    fn start(earliest: i64, _latest: i64) -> i64 {
        earliest
    }

    fn delay(delays: Delays) -> i64 {
        delays.least
    }
}
