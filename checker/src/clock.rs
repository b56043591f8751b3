//! The clock: schedules, when they are lawful, and the two shifts.

/// The greatest time that a period or an input may have.
pub const GREATEST_TIME: u32 = 16_777_215;
pub const MOST_PHASES: usize = 16;

#[derive(Clone, Copy, Debug, PartialEq, Eq)]
pub struct Phase {
    pub start: u32,
    pub width: u32,
}

/// The figures of a schedule, lawful or not. Phase 1 is the first of `phases`.
#[derive(Clone, Debug, PartialEq, Eq)]
pub struct Schedule {
    pub period: u32,
    pub proximity: u32,
    pub phases: Vec<Phase>,
}

impl Schedule {
    pub fn is_lawful(&self) -> bool {
        (2..=GREATEST_TIME).contains(&self.period)
            && self.proximity < self.period
            && (1..=MOST_PHASES).contains(&self.phases.len())
            && self.phases.iter().all(|phase| phase.start < self.period)
            && self.phases.is_sorted_by_key(|phase| phase.start)
            && self.phases.iter().all(|phase| (1..=self.period).contains(&phase.width))
    }

    pub fn has_phase(&self, phase: u8) -> bool {
        (1..=self.phases.len()).contains(&usize::from(phase))
    }

    pub fn opening_edge(&self, phase: u8) -> i64 {
        i64::from(self.period) - i64::from(self.phase(phase).width)
    }

    /// What is subtracted from a time at `from` to have it at `to`, for what leaves `from` and arrives at `to`.
    pub fn forward_shift(&self, from: u8, to: u8) -> i64 {
        let gap = self.gap(from, to);
        if from < to {
            gap
        } else {
            gap + i64::from(self.period)
        }
    }

    /// What is subtracted from a time at `from` to have it at `to`, for wires that switch near each other.
    pub fn nearest_shift(&self, from: u8, to: u8) -> i64 {
        let gap = self.gap(from, to);
        let period = i64::from(self.period);
        if 2 * gap < -period {
            gap + period
        } else if 2 * gap > period {
            gap - period
        } else {
            gap
        }
    }

    fn gap(&self, from: u8, to: u8) -> i64 {
        i64::from(self.phase(to).start) - i64::from(self.phase(from).start)
    }

    fn phase(&self, phase: u8) -> Phase {
        self.phases[usize::from(phase) - 1]
    }
}

#[cfg(test)]
mod tests {
    use super::*;

    fn two_phases(period: u32, second: u32) -> Schedule {
        let phases = vec![Phase { start: 0, width: 40 }, Phase { start: second, width: 40 }];
        Schedule { period, proximity: 0, phases }
    }

    #[test]
    fn shifts_of_the_worked_examples() {
        let clock = two_phases(100, 50);
        assert_eq!((clock.forward_shift(1, 2), clock.nearest_shift(1, 2)), (50, 50));
        assert_eq!(clock.nearest_shift(2, 1), -50);
        assert_eq!(two_phases(101, 51).nearest_shift(1, 2), -50);
        assert_eq!(two_phases(100, 60).nearest_shift(1, 2), -40);
        assert_eq!(two_phases(100, 60).nearest_shift(2, 1), 40);
    }
}
