//! Rings of latches whose greatest delays add up to their shifts, or to a tick or two more or less.

use super::clocks;
use super::designs::{self, Scale, Shape};
use super::edges;
use super::script::Script;
use super::tours;
use crate::design::{Coupling, Delay, Node, Table, GREATEST_FIGURE};
use crate::random::Random;
use crate::windows::shift;

pub fn rings(random: &mut Random, script: &mut Script) {
    let schedule = clocks::lawful(random);
    let scale = Scale::of(random, &schedule);
    let mut table = designs::empty(schedule);
    if random.one_in(2) {
        let shape = Shape { nodes: random.count(1..=4), couplings: 0 };
        designs::extend(random, &mut table, shape, scale);
    }
    for _ in 0..random.count(1..=3).min(random.count(1..=3)) {
        if table.nodes.len() < 80 {
            ring(random, &mut table);
        }
    }
    let shape = Shape { nodes: random.count(0..=6), couplings: random.count(0..=6) };
    designs::extend(random, &mut table, shape, scale);
    if random.one_in(3) {
        return edges::write_at_edge(random, script, &mut table);
    }
    script.enter(random, &table);
    script.seal_and_verify(random);
    tours::tour(random, script);
}

/// Adds a ring of latches, each followed by some gates, with some couplings on its nodes.
fn ring(random: &mut Random, table: &mut Table) {
    let first = table.nodes.len();
    let gates = random.count(0..=3);
    for _ in 0..long_count(random) {
        push_latch(random, table, first);
        for _ in 0..random.count(0..=gates) {
            push_gate(random, table);
        }
    }
    let last = table.nodes.len() - 1;
    if let Node::Latch { source, .. } = &mut table.nodes[first] {
        *source = Some(last);
    }
    let opposing = if random.one_in(2) { couple(random, table, first) } else { 0 };
    let gain = random.pick(&[-2, -1, -1, 0, 0, 0, 1, 1, 2, 9]);
    let counted = if random.one_in(2) { opposing } else { 0 };
    set_delays(random, table, first, gain - counted);
}

fn long_count(random: &mut Random) -> usize {
    if random.one_in(20) {
        random.count(8..=40)
    } else {
        random.count(1..=5)
    }
}

/// A latch that is fed by the node before it, unless it is the first of the ring.
fn push_latch(random: &mut Random, table: &mut Table, first: usize) {
    let node = table.nodes.len();
    let period = table.schedule.period;
    table.nodes.push(Node::Latch {
        phase: designs::phase(random, &table.schedule),
        delay: Delay { least: 0, greatest: 0 },
        setup: if random.one_in(2) { 0 } else { random.within(0..=(period / 4).min(GREATEST_FIGURE)) },
        hold: if random.one_in(2) { 0 } else { random.within(0..=(period / 8).min(GREATEST_FIGURE)) },
        source: (node > first).then(|| node - 1),
    });
}

/// A gate that is fed by the node before it, and by another one now and then.
fn push_gate(random: &mut Random, table: &mut Table) {
    let node = table.nodes.len();
    let mut sources = vec![node - 1];
    if random.one_in(4) {
        sources.push(random.index(node));
    }
    let phase = if random.one_in(2) { table.nodes[node - 1].phase() } else { designs::phase(random, &table.schedule) };
    table.nodes.push(Node::Gate { phase, delay: Delay { least: 0, greatest: 0 }, sources });
}

/// Adds couplings whose victims are nodes of the ring, and answers the sum of their opposing amounts.
fn couple(random: &mut Random, table: &mut Table, first: usize) -> i64 {
    let mut sum = 0;
    for victim in first..table.nodes.len() {
        let aggressor = random.index(table.nodes.len());
        if random.one_in(2) && aggressor != victim {
            let opposing = random.within(0..=4);
            table.couplings.push(Coupling { victim, aggressor, assisting: 0, opposing });
            sum += i64::from(opposing);
        }
    }
    sum
}

/// Gives the nodes of the ring greatest delays that gain so much once round, as far as delays allow it.
fn set_delays(random: &mut Random, table: &mut Table, first: usize, gain: i64) {
    let nodes: Vec<usize> = (first..table.nodes.len()).collect();
    let next = |node: usize| if node + 1 < table.nodes.len() { node + 1 } else { first };
    let shifts: i64 = nodes.iter().map(|&node| shift(table, node, next(node))).sum();
    let mut left = (shifts + gain).max(0);
    let mut order = nodes;
    random.shuffle(&mut order);
    let last = order.len() - 1;
    for (place, &node) in order.iter().enumerate() {
        let most = left.min(i64::from(GREATEST_FIGURE)) as u32;
        let greatest = if place == last || random.one_in(4) { most } else { random.within(0..=most) };
        left -= i64::from(greatest);
        let least = if random.one_in(2) { greatest } else { random.within(0..=greatest) };
        match &mut table.nodes[node] {
            Node::Gate { delay, .. } | Node::Latch { delay, .. } => *delay = Delay { least, greatest },
            Node::Input { .. } => {}
        }
    }
}
