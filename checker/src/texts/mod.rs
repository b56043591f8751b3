//! Making random texts. One text is made from a seed and a number, and is the same each time.

pub mod clocks;
mod damage;
mod designs;
mod edges;
mod full;
mod knobs;
mod ladders;
mod lengths;
mod rings;
mod script;
mod stairs;
mod suspects;
mod tours;

use crate::random::Random;
use script::Script;

/// What a text was made to show.
#[derive(Clone, Copy, Debug, PartialEq, Eq, PartialOrd, Ord)]
pub enum Scenario {
    /// A random design, judged, changed and judged again.
    Design,
    /// A design with one figure at a value where the verdict or the flags change.
    Edge,
    /// Couplings in several phases of which each round wakes one more.
    Stairs,
    /// Rings of latches which gain nothing or a few ticks.
    Ring,
    /// Couplings of which each round wakes one more.
    Ladder,
    /// More nodes or couplings than the book takes.
    Full,
    /// Lines at random.
    Suspect,
    /// A text of lines of which some characters were changed.
    Damaged,
    /// A text that is empty, about as long as a text may be, or longer.
    Length,
}

/// How many texts of a hundred are made to show what.
const SHARES: [(Scenario, u64); 9] = [
    (Scenario::Design, 21),
    (Scenario::Edge, 18),
    (Scenario::Stairs, 13),
    (Scenario::Ring, 14),
    (Scenario::Ladder, 8),
    (Scenario::Full, 4),
    (Scenario::Suspect, 10),
    (Scenario::Damaged, 9),
    (Scenario::Length, 3),
];

#[derive(Clone, Debug)]
pub struct Text {
    pub scenario: Scenario,
    pub bytes: Vec<u8>,
    /// The seed by which the model shuffles the connections.
    pub shuffling: u64,
}

pub fn text(seed: u64, number: u64) -> Text {
    let mut random = Random::numbered(seed, number);
    let scenario = scenario(&mut random);
    let mut script = Script::new(&mut random);
    match scenario {
        Scenario::Design => tours::design(&mut random, &mut script),
        Scenario::Edge => edges::edge(&mut random, &mut script),
        Scenario::Stairs => stairs::stairs(&mut random, &mut script),
        Scenario::Ring => rings::rings(&mut random, &mut script),
        Scenario::Ladder => ladders::ladder(&mut random, &mut script),
        Scenario::Full => full::full(&mut random, &mut script),
        Scenario::Suspect => suspects::lines(&mut random, &mut script),
        Scenario::Damaged => tours::design(&mut random, &mut script),
        Scenario::Length => {}
    }
    let bytes = match scenario {
        Scenario::Length => lengths::text(&mut random),
        Scenario::Damaged => damage::text(&mut random, script.end()),
        _ => script.end(),
    };
    let bytes = without_last_feed(&mut random, bytes);
    Text { scenario, bytes, shuffling: random.number() }
}

fn scenario(random: &mut Random) -> Scenario {
    let mut place = random.below(SHARES.iter().map(|(_, share)| share).sum());
    for (scenario, share) in SHARES {
        if place < share {
            return scenario;
        }
        place -= share;
    }
    Scenario::Design
}

fn without_last_feed(random: &mut Random, mut bytes: Vec<u8>) -> Vec<u8> {
    if random.one_in(6) && bytes.last() == Some(&b'\n') {
        bytes.pop();
    }
    bytes
}

#[cfg(test)]
mod tests {
    use super::*;
    use crate::frames::{decode, Frame};

    #[test]
    fn a_text_is_the_same_each_time_and_each_kind_occurs() {
        let texts: Vec<Text> = (0..400).map(|number| text(3, number)).collect();
        for (number, once) in (0..).zip(&texts) {
            let again = text(3, number);
            assert_eq!((again.scenario, &again.bytes, again.shuffling), (once.scenario, &once.bytes, once.shuffling));
        }
        for (scenario, _) in SHARES {
            assert!(texts.iter().any(|text| text.scenario == scenario), "{scenario:?}");
        }
    }

    #[test]
    fn unlawful_schedules_are_frames_and_not_lawful() {
        let mut random = Random::new(4);
        for _ in 0..2_000 {
            let schedule = clocks::unlawful(&mut random);
            assert!(!schedule.is_lawful(), "{schedule:?}");
            let line = Frame::Schedule(schedule.clone()).line();
            assert_eq!(decode(&line).and_then(|bytes| Frame::read(&bytes)), Some(Frame::Schedule(schedule)));
        }
    }
}
