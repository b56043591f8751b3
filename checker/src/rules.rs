//! The coupling rules: whether an aggressor can switch near a victim in time.

use crate::clock::Schedule;
use crate::windows::Window;

#[derive(Clone, Copy, Debug, PartialEq, Eq)]
pub enum Rule {
    Never,
    ThreeOccurrences,
    Always,
}

/// The victim or the aggressor of a coupling: its phase, and its window, which counts from the start of this phase.
#[derive(Clone, Copy, Debug)]
pub struct Wire {
    pub phase: u8,
    pub window: Window,
}

impl Rule {
    pub const ALL: [Rule; 3] = [Rule::Never, Rule::ThreeOccurrences, Rule::Always];

    pub fn of_byte(byte: u8) -> Option<Rule> {
        match byte {
            0 => Some(Rule::Never),
            1 => Some(Rule::ThreeOccurrences),
            2 => Some(Rule::Always),
            _ => None,
        }
    }

    pub fn byte(self) -> u8 {
        match self {
            Rule::Never => 0,
            Rule::ThreeOccurrences => 1,
            Rule::Always => 2,
        }
    }

    pub fn sees(self, schedule: &Schedule, victim: Wire, aggressor: Wire) -> bool {
        match self {
            Rule::Never => false,
            Rule::Always => true,
            Rule::ThreeOccurrences if victim.phase == aggressor.phase => {
                near(victim.window, aggressor.window, i64::from(schedule.proximity))
            }
            Rule::ThreeOccurrences => sees_an_occurrence(schedule, victim, aggressor),
        }
    }
}

/// Whether two windows that count from one start overlap, or have a gap no wider than the proximity.
fn near(one: Window, other: Window, proximity: i64) -> bool {
    one.begin.max(other.begin) <= one.end.min(other.end) + proximity
}

/// Whether the aggressor's nearest, following or previous occurrence can be near a victim of another phase.
fn sees_an_occurrence(schedule: &Schedule, victim: Wire, aggressor: Wire) -> bool {
    let period = i64::from(schedule.period);
    let proximity = i64::from(schedule.proximity);
    let forward = schedule.forward_shift(aggressor.phase, victim.phase);
    let nearest = schedule.nearest_shift(aggressor.phase, victim.phase);
    let Window { begin, end } = victim.window;
    let moved = Window { begin: aggressor.window.begin - nearest, end: aggressor.window.end - nearest };
    let following = end + proximity >= moved.begin + period && end > aggressor.window.begin - forward;
    let previous = begin <= moved.end + proximity - period && begin <= aggressor.window.end - forward;
    near(victim.window, moved, proximity) || following || previous
}

#[cfg(test)]
mod tests {
    use super::*;
    use crate::clock::Phase;

    fn wire(phase: u8, begin: i64, end: i64) -> Wire {
        Wire { phase, window: Window { begin, end } }
    }

    #[test]
    fn pairs_of_the_worked_examples() {
        let phases = vec![Phase { start: 0, width: 40 }, Phase { start: 60, width: 40 }];
        let clock = Schedule { period: 100, proximity: 0, phases };
        let wider = Schedule { proximity: 8, ..clock.clone() };
        let rule = Rule::ThreeOccurrences;
        assert!(rule.sees(&clock, wire(2, 1, 3), wire(1, 60, 62)));
        assert!(rule.sees(&clock, wire(1, 91, 95), wire(2, 30, 32)));
        assert!(!rule.sees(&clock, wire(1, 80, 89), wire(2, 30, 32)));
        assert!(!rule.sees(&wider, wire(2, 10, 12), wire(1, 60, 62)));
    }
}
