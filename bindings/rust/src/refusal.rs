//! Why a call is refused.

use std::error::Error;
use std::fmt::{Display, Formatter};
use std::num::NonZeroU8;

/// A refusal by its number. `docs/refusals.md` says what each means.
#[derive(Clone, Copy, PartialEq, Eq, Debug)]
pub struct Refusal(NonZeroU8);

impl Refusal {
    pub fn number(self) -> u8 {
        self.0.get()
    }

    /// The refusal that a status tells; 0 tells none.
    pub(crate) fn of_status(status: u8) -> Option<Refusal> {
        NonZeroU8::new(status).map(Refusal)
    }

    fn name(self) -> &'static str {
        match self.number() {
            1 => "full",
            2 => "phase",
            3 => "span",
            4 => "figure",
            5 => "fan",
            6 => "node",
            7 => "pair",
            8 => "assist",
            9 => "clock",
            10 => "unfed",
            11 => "short",
            12 => "digits",
            13 => "frame",
            14 => "order",
            _ => "unknown",
        }
    }
}

impl Display for Refusal {
    fn fmt(&self, f: &mut Formatter<'_>) -> std::fmt::Result {
        write!(f, "refused with {} ({})", self.number(), self.name())
    }
}

impl Error for Refusal {}
