//! Verdicts, and the bytes in which the library writes them.

/// How many bytes the line of a verdict has.
pub const VERDICT_LENGTH: usize = 15;

/// What is judged of a table. A latch is told by its number, and its excess in ticks.
#[derive(Clone, Copy, PartialEq, Eq, Debug)]
pub enum Outcome {
    Pass,
    Gain { latch: u16 },
    Late { latch: u16, excess: i64 },
    Early { latch: u16, excess: i64 },
}

/// A verdict, with how many rounds were made, the last one included, and how many flags are set.
#[derive(Clone, Copy, PartialEq, Eq, Debug)]
pub struct Verdict {
    pub outcome: Outcome,
    pub rounds: u16,
    pub flags: u16,
}

impl Verdict {
    /// The verdict that the bytes of its line tell; none where the first byte is no verdict's number.
    pub fn of_bytes(bytes: [u8; VERDICT_LENGTH]) -> Option<Verdict> {
        let [number, l0, l1, e0, e1, e2, e3, e4, e5, e6, e7, r0, r1, f0, f1] = bytes;
        let latch = u16::from_be_bytes([l0, l1]);
        let excess = i64::from_be_bytes([e0, e1, e2, e3, e4, e5, e6, e7]);
        let outcome = match number {
            0 => Outcome::Pass,
            64 => Outcome::Gain { latch },
            65 => Outcome::Late { latch, excess },
            66 => Outcome::Early { latch, excess },
            _ => return None,
        };
        Some(Verdict { outcome, rounds: u16::from_be_bytes([r0, r1]), flags: u16::from_be_bytes([f0, f1]) })
    }
}

#[cfg(test)]
mod tests {
    use super::*;

    #[test]
    fn each_field_is_read_from_its_bytes() {
        let late = [65, 1, 2, 0, 0, 0, 0, 0, 0, 3, 4, 5, 6, 7, 8];
        let latch = 0x0102;
        let excess = 0x0304;
        let verdict = Verdict { outcome: Outcome::Late { latch, excess }, rounds: 0x0506, flags: 0x0708 };
        assert_eq!(Verdict::of_bytes(late), Some(verdict));
        assert_eq!(Verdict::of_bytes([67; VERDICT_LENGTH]), None);
    }
}
