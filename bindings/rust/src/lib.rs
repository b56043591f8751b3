//! The library for callers in Rust: a text of frames in, and out what `clockmark` prints for it, a verdict, or the text of
//! its table. The book of each call takes 4,096 nodes and 1,024 couplings, and a text has any length.
//!
//! A refused call writes nothing. A call wants two megabytes of stack.
//!
//! A clock of period 100 with one phase, which is open for 40, and an input that feeds a latch:
//!
//! ```
//! use ravokimpy::{judge, output, room, Outcome, Rule};
//!
//! let text = b"010000006400000000010000000000000028\n\
//!     02010000004600000046\n\
//!     040100000002000000040000000500000003\n\
//!     0500010000\n\
//!     08\n";
//! let mut out = vec![0; room(text)];
//! let written = output(text, &mut out)?;
//! assert_eq!(out[..written], *b"00\n000000\n000001\n00\n00\n");
//!
//! let verdict = judge(text, Rule::ThreeOccurrences, 1)?;
//! assert_eq!(verdict.outcome, Outcome::Early { latch: 1, excess: 33 });
//! # Ok::<(), ravokimpy::Refusal>(())
//! ```

#[allow(unsafe_code)]
mod foreign;
mod refusal;
mod verdict;

pub use refusal::Refusal;
pub use verdict::{Outcome, Verdict, VERDICT_LENGTH};

/// How many nodes and couplings a book takes.
pub const MOST_NODES: usize = 4096;
pub const MOST_COUPLINGS: usize = 1024;

/// When a coupling acts.
#[derive(Clone, Copy, PartialEq, Eq, Debug)]
pub enum Rule {
    Never,
    ThreeOccurrences,
    Always,
}

impl Rule {
    /// The byte that names the rule in a frame.
    pub fn byte(self) -> u8 {
        match self {
            Rule::Never => 0,
            Rule::ThreeOccurrences => 1,
            Rule::Always => 2,
        }
    }
}

/// For how many bytes there has to be room in the output of a text.
pub fn room(text: &[u8]) -> usize {
    foreign::room(text)
}

/// Puts the lines of a text to a book that is not opened, writes what is printed for them into the first places of `out`,
/// and answers how many bytes that is. Refused with 11 where `out` is shorter than the `room` of the text.
pub fn output(text: &[u8], out: &mut [u8]) -> Result<usize, Refusal> {
    foreign::output(text, out)
}

/// As `output`, but the text up to byte `place` and the rest are read as two texts, and between them rows of the tables are
/// overwritten as the records in `rows` say, behind the book's back. Refused with 11 where `out` is shorter than the rooms
/// of both texts together.
pub fn output_overwritten(text: &[u8], place: usize, rows: &[u8], out: &mut [u8]) -> Result<usize, Refusal> {
    foreign::output_overwritten(text, place, rows, out)
}

/// Loads a text and judges its table under a rule, `times` times over and at least once. Refused with the number of the
/// first line that is refused, or with 14 where the text does not leave the table sealed.
pub fn judge(text: &[u8], rule: Rule, times: u32) -> Result<Verdict, Refusal> {
    let mut bytes = [0; VERDICT_LENGTH];
    judge_into(text, rule.byte(), times, &mut bytes)?;
    Ok(Verdict::of_bytes(bytes).expect("the library writes the number of a verdict"))
}

/// As `judge`, but of a rule by its byte, and with the bytes of the verdict's line written into the first places of
/// `verdict`. It is also refused with 13, before all else, where no rule has the byte, and with 11, after all else, where
/// there are fewer than 15 places.
pub fn judge_into(text: &[u8], rule: u8, times: u32, verdict: &mut [u8]) -> Result<usize, Refusal> {
    foreign::judge(text, rule, times, verdict)
}

/// Loads a text, writes the table that it makes as a text into the first places of `out`, and answers how many bytes that
/// is. Refused with the number of the first line that is refused, and else with 11 where `out` is shorter than the text.
pub fn rebuild(text: &[u8], out: &mut [u8]) -> Result<usize, Refusal> {
    foreign::rebuild(text, out)
}
