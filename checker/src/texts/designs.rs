//! Random tables whose rows calls grant.

use crate::clock::{Schedule, GREATEST_TIME};
use crate::design::{Coupling, Delay, Node, Table, GREATEST_FIGURE, MOST_SOURCES};
use crate::random::Random;
use crate::session::Limits;

/// How many nodes and couplings are to be added.
#[derive(Clone, Copy, Debug)]
pub struct Shape {
    pub nodes: usize,
    pub couplings: usize,
}

impl Shape {
    pub fn small(random: &mut Random) -> Shape {
        Shape { nodes: random.count(1..=12), couplings: random.count(0..=8) }
    }

    pub fn any(random: &mut Random) -> Shape {
        match random.below(20) {
            0..=10 => Shape::small(random),
            11..=16 => Shape { nodes: random.count(8..=40), couplings: random.count(0..=30) },
            17 | 18 => Shape { nodes: random.count(30..=120), couplings: random.count(10..=100) },
            _ => Shape { nodes: random.count(120..=256), couplings: random.count(0..=256) },
        }
    }
}

/// About how long the delays, setups, holds and amounts of a table are.
#[derive(Clone, Copy, Debug)]
pub struct Scale {
    delay: u32,
    bound: u32,
    amount: u32,
}

impl Scale {
    pub fn of(random: &mut Random, schedule: &Schedule) -> Scale {
        let period = schedule.period;
        let delay =
            random.pick(&[0, 2, period / 16, period / 8, period / 4, period / 4, period / 2, period, 2 * period]);
        let bound = random.pick(&[0, 2, period / 16, period / 8, period / 2]);
        let amount = random.pick(&[0, 1, delay / 4, delay / 2, period / 8]);
        let scale = Scale { delay, bound, amount };
        if random.one_in(25) {
            Scale { delay: GREATEST_FIGURE, ..scale }
        } else {
            scale
        }
    }
}

pub fn empty(schedule: Schedule) -> Table {
    Table { size: Limits::CLOCKMARK.size, schedule, nodes: Vec::new(), couplings: Vec::new() }
}

pub fn table(random: &mut Random, schedule: Schedule, shape: Shape) -> Table {
    let scale = Scale::of(random, &schedule);
    let mut table = empty(schedule);
    extend(random, &mut table, shape, scale);
    table
}

/// Adds nodes, feeds all latches that are not fed, and adds couplings, as far as there is room for them.
pub fn extend(random: &mut Random, table: &mut Table, shape: Shape, scale: Scale) {
    let latches = random.pick(&[2, 4, 10]);
    for _ in 0..shape.nodes.min(table.size.nodes - table.nodes.len()) {
        let node = node(random, table, scale, latches);
        table.nodes.push(node);
    }
    feed(random, table);
    for _ in 0..shape.couplings {
        couple(random, table, scale);
    }
}

fn node(random: &mut Random, table: &Table, scale: Scale, latches: u64) -> Node {
    if random.one_in(latches) {
        return Node::Latch {
            phase: phase(random, &table.schedule),
            delay: delay(random, scale),
            setup: figure(random, scale.bound),
            hold: figure(random, scale.bound),
            source: None,
        };
    }
    if table.nodes.is_empty() || random.one_in(5) {
        return input(random, &table.schedule);
    }
    let fan = random.count(1..=MOST_SOURCES).min(random.count(1..=MOST_SOURCES));
    let sources: Vec<usize> = (0..fan).map(|_| recent(random, table.nodes.len())).collect();
    let same = !random.one_in(4);
    let phase = if same { table.nodes[sources[0]].phase() } else { phase(random, &table.schedule) };
    Node::Gate { phase, delay: delay(random, scale), sources }
}

fn input(random: &mut Random, schedule: &Schedule) -> Node {
    let time = |random: &mut Random| match random.below(12) {
        0 => random.within(GREATEST_TIME - 1..=GREATEST_TIME),
        1 => 0,
        _ => random.within(0..=schedule.period),
    };
    let one = time(random).min(GREATEST_TIME);
    let other = if random.one_in(3) { one } else { time(random).min(GREATEST_TIME) };
    Node::Input { phase: phase(random, schedule), earliest: one.min(other), latest: one.max(other) }
}

pub fn phase(random: &mut Random, schedule: &Schedule) -> u8 {
    random.count(1..=schedule.phases.len()) as u8
}

pub fn delay(random: &mut Random, scale: Scale) -> Delay {
    let one = figure(random, scale.delay);
    let other = if random.one_in(3) { one } else { figure(random, scale.delay) };
    Delay { least: one.min(other), greatest: one.max(other) }
}

pub fn figure(random: &mut Random, scale: u32) -> u32 {
    let scale = scale.min(GREATEST_FIGURE);
    match random.below(40) {
        0 => 0,
        1 => scale,
        2 => random.within(0..=3),
        3 if random.one_in(20) => GREATEST_FIGURE,
        _ => random.within(0..=scale),
    }
}

/// A node below the count, a late one more often than an early one.
fn recent(random: &mut Random, count: usize) -> usize {
    random.index(count).max(random.index(count))
}

fn feed(random: &mut Random, table: &mut Table) {
    let count = table.nodes.len();
    for node in &mut table.nodes {
        if let Node::Latch { source: source @ None, .. } = node {
            *source = Some(random.index(count));
        }
    }
}

/// Adds a coupling, if it finds a pair that has none.
pub fn couple(random: &mut Random, table: &mut Table, scale: Scale) {
    let victims: Vec<usize> = (0..table.nodes.len()).filter(|&node| !table.nodes[node].is_input()).collect();
    if victims.is_empty() || table.couplings.len() == table.size.couplings {
        return;
    }
    let victim = random.pick(&victims);
    let aggressor = random.index(table.nodes.len());
    let same = |coupling: &Coupling| coupling.victim == victim && coupling.aggressor == aggressor;
    if victim == aggressor || table.couplings.iter().any(same) {
        return;
    }
    let left = room(table, victim);
    let assisting = match random.below(4) {
        0 => left,
        1 => 0,
        _ => figure(random, scale.amount).min(left),
    };
    table.couplings.push(Coupling { victim, aggressor, assisting, opposing: figure(random, scale.amount) });
}

/// How much more a victim may be assisted.
pub fn room(table: &Table, victim: usize) -> u32 {
    let assisted = u32::try_from(table.assisted(victim)).expect("no more than a least delay");
    table.nodes[victim].delay().least - assisted
}
