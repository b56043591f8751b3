//! A second implementation of the program `clockmark`, written from the documents in `docs/`, and a comparison of both on
//! random texts. `docs/checker.md` says by which method it works.

pub mod clock;
pub mod closed;
pub mod compare;
pub mod design;
pub mod frames;
pub mod program;
pub mod random;
pub mod rules;
pub mod session;
pub mod shrink;
pub mod tally;
pub mod texts;
pub mod verdicts;
pub mod windows;
