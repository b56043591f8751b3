//! Random designs of any size, whose rows a book grants.

use checker::clock::Schedule;
use checker::design::{Delay, GREATEST_FIGURE};
use checker::random::Random;
use checker::texts::clocks::lawful;
use compare::design::{Design, Latch};
use std::collections::{HashMap, HashSet};

/// How a random design is made.
struct Habit {
    phases: u8,
    period: u32,
    /// The greatest of most delays, of most setups and holds, and of most amounts.
    delay: u32,
    bound: u32,
    amount: u32,
    /// One node in so many is a latch, and one of the others in so many an input.
    latches: u64,
    inputs: u64,
    /// How many nodes back most sources lie at most.
    reach: usize,
}

/// What couplings ask of a node.
struct Row {
    is_input: bool,
    phase: u8,
    least: u32,
}

pub fn design(random: &mut Random, nodes: usize, couplings: usize) -> Design {
    let schedule = lawful(random);
    let habit = Habit::of(random, &schedule);
    let mut design = Design::new(schedule);
    let mut rows: Vec<Row> = Vec::new();
    let mut latches = Vec::new();
    while design.nodes() < nodes {
        if random.one_in(habit.latches) {
            latches.push(design.nodes());
            rows.push(add_latch(random, &mut design, &habit));
        } else if rows.is_empty() || random.one_in(habit.inputs) {
            rows.push(add_input(random, &mut design, &habit));
        } else {
            rows.push(add_gate(random, &mut design, &habit, &rows));
        }
    }
    for latch in latches {
        let source = if random.one_in(3) { random.index(nodes) } else { near(random, latch, habit.reach, nodes) };
        design.feed(latch, source);
    }
    couple(random, &mut design, &habit, &rows, couplings);
    design
}

impl Habit {
    fn of(random: &mut Random, schedule: &Schedule) -> Habit {
        let period = schedule.period;
        let delay = random.pick(&[3, period / 64, period / 16, period / 16, period / 4, period, 2 * period]);
        Habit {
            phases: schedule.phases.len() as u8,
            period,
            delay: delay.clamp(1, GREATEST_FIGURE),
            bound: random.pick(&[0, 2, period / 16, period / 4]).min(GREATEST_FIGURE),
            amount: random.pick(&[1, 3, delay / 8, delay / 2]).min(GREATEST_FIGURE),
            latches: random.pick(&[2, 5, 20, 20, 60]),
            inputs: random.pick(&[3, 10, 40]),
            reach: random.pick(&[2, 10, 40, 4096]),
        }
    }

    fn delay(&self, random: &mut Random) -> Delay {
        let (one, other) = (random.within(0..=self.delay), random.within(0..=self.delay));
        Delay { least: one.min(other), greatest: one.max(other) }
    }

    fn phase(&self, random: &mut Random) -> u8 {
        random.count(1..=usize::from(self.phases)) as u8
    }
}

fn add_input(random: &mut Random, design: &mut Design, habit: &Habit) -> Row {
    let (one, other) = (random.within(0..=habit.period), random.within(0..=habit.period));
    let earliest = one.min(other);
    let latest = if random.one_in(2) { earliest } else { one.max(other) };
    let phase = habit.phase(random);
    design.input(phase, earliest, latest);
    Row { is_input: true, phase, least: 0 }
}

fn add_latch(random: &mut Random, design: &mut Design, habit: &Habit) -> Row {
    let (phase, delay) = (habit.phase(random), habit.delay(random));
    let setup = random.within(0..=habit.bound);
    let hold = random.within(0..=habit.bound);
    design.latch(Latch { phase, delay, setup, hold });
    Row { is_input: false, phase, least: delay.least }
}

fn add_gate(random: &mut Random, design: &mut Design, habit: &Habit, rows: &[Row]) -> Row {
    let reach = habit.reach.min(rows.len());
    let fan = random.count(1..=4).min(random.count(1..=4));
    let sources: Vec<usize> = (0..fan).map(|_| rows.len() - random.count(1..=reach)).collect();
    let phase = if random.one_in(5) { habit.phase(random) } else { rows[sources[0]].phase };
    let delay = habit.delay(random);
    design.gate(phase, delay, &sources);
    Row { is_input: false, phase, least: delay.least }
}

/// A node beside another.
fn near(random: &mut Random, node: usize, reach: usize, nodes: usize) -> usize {
    random.count(node.saturating_sub(reach)..=(node + reach).min(nodes - 1))
}

/// Adds so many couplings, if it finds so many pairs.
fn couple(random: &mut Random, design: &mut Design, habit: &Habit, rows: &[Row], couplings: usize) {
    let mut pairs = HashSet::new();
    let mut assisted: HashMap<usize, u32> = HashMap::new();
    for _ in 0..20 * couplings {
        if design.couplings() == couplings {
            return;
        }
        let victim = random.index(rows.len());
        let aggressor = near(random, victim, habit.reach, rows.len());
        if rows[victim].is_input || victim == aggressor || !pairs.insert((victim, aggressor)) {
            continue;
        }
        let taken = assisted.entry(victim).or_default();
        let assisting = random.within(0..=habit.amount).min(rows[victim].least - *taken);
        *taken += assisting;
        design.couple(victim, aggressor, assisting, random.within(0..=habit.amount));
    }
}
