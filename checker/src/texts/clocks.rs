//! Random schedules, lawful and not.

use crate::clock::{Phase, Schedule, GREATEST_TIME, MOST_PHASES};
use crate::random::Random;

pub fn lawful(random: &mut Random) -> Schedule {
    let count = match random.below(7) {
        0 | 1 => 1,
        2 | 3 => 2,
        4 => random.count(3..=4),
        5 => random.count(1..=MOST_PHASES),
        _ => random.count(MOST_PHASES - 1..=MOST_PHASES),
    };
    lawful_of(random, count)
}

/// A lawful schedule of so many phases.
pub fn lawful_of(random: &mut Random, count: usize) -> Schedule {
    let period = period(random);
    let proximity = match random.below(6) {
        0 | 1 => 0,
        2 => random.within(0..=(period - 1).min(3)),
        3 => random.within(0..=period / 8),
        4 => period - 1,
        _ => random.within(0..=period - 1),
    };
    let starts = starts(random, period, count);
    let phases = starts.into_iter().map(|start| Phase { start, width: width(random, period) }).collect();
    Schedule { period, proximity, phases }
}

fn period(random: &mut Random) -> u32 {
    match random.below(10) {
        0 => random.within(2..=4),
        1 | 2 => random.within(5..=20),
        3..=6 => random.within(40..=200),
        7 => random.within(1_000..=100_000),
        8 => random.within(100_000..=GREATEST_TIME),
        _ => random.within(GREATEST_TIME - 1..=GREATEST_TIME),
    }
}

fn starts(random: &mut Random, period: u32, count: usize) -> Vec<u32> {
    match random.below(8) {
        0 => vec![0; count],
        1 => vec![period - 1; count],
        2 | 3 => (0..count).map(|phase| (u64::from(period) * phase as u64 / count as u64) as u32).collect(),
        _ => {
            let mut starts: Vec<u32> = (0..count).map(|_| random.within(0..=period - 1)).collect();
            starts.sort_unstable();
            starts
        }
    }
}

fn width(random: &mut Random, period: u32) -> u32 {
    match random.below(5) {
        0 => 1,
        1 => period,
        2 => period.div_ceil(2),
        _ => random.within(1..=period),
    }
}

/// A lawful schedule of as many phases, the same but for one figure that is one more or one less, where that is lawful.
pub fn nearby(random: &mut Random, schedule: &Schedule) -> Schedule {
    for _ in 0..8 {
        let mut changed = schedule.clone();
        let phase = random.index(changed.phases.len());
        let figure = match random.below(4) {
            0 => &mut changed.period,
            1 => &mut changed.proximity,
            2 => &mut changed.phases[phase].start,
            _ => &mut changed.phases[phase].width,
        };
        *figure = if random.one_in(2) { figure.wrapping_add(1) } else { figure.wrapping_sub(1) };
        if changed.is_lawful() {
            return changed;
        }
    }
    schedule.clone()
}

/// A schedule that is not lawful by one of its figures, just so or by far.
pub fn unlawful(random: &mut Random) -> Schedule {
    let mut schedule = lawful(random);
    let period = schedule.period;
    let phase = random.index(schedule.phases.len());
    let before = schedule.phases[phase].start.checked_sub(1);
    match (random.below(7), before) {
        (0, _) => schedule.period = random.pick(&[0, 1, GREATEST_TIME + 1, u32::MAX]),
        (1, _) => schedule.proximity = random.pick(&[period, period + 1, u32::MAX]),
        (2, _) => {
            let count = random.pick(&[0, MOST_PHASES + 1, MOST_PHASES + 2, 255]);
            schedule.phases.resize(count, Phase { start: period - 1, width: 1 });
        }
        (3, _) => {
            let phase = schedule.phases.len() - 1;
            schedule.phases[phase].start = random.pick(&[period, period + 1, u32::MAX]);
        }
        (4 | 5, Some(start)) if schedule.phases.len() < MOST_PHASES => {
            schedule.phases.push(Phase { start, width: 1 });
        }
        _ => schedule.phases[phase].width = random.pick(&[0, period + 1, u32::MAX]),
    }
    schedule
}
