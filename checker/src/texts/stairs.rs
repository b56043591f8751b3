//! Stairs: ladders across phases. Each stair is a coupling that is seen with the windows of the last round so far, but
//! not with those of the round before it; the times of its input are tried until that is so.

use super::clocks;
use super::designs::{self, Scale, Shape};
use super::edges;
use super::script::Script;
use super::tours;
use crate::clock::{Schedule, GREATEST_TIME};
use crate::design::{Coupling, Delay, Node, Table, GREATEST_FIGURE};
use crate::random::Random;
use crate::rules::{Rule, Wire};
use crate::verdicts::seen_outside;
use crate::windows::{Found, Network, Order, Window};

const RULE: Rule = Rule::ThreeOccurrences;
const TRIES: usize = 60;

pub fn stairs(random: &mut Random, script: &mut Script) {
    let schedule = clocks::lawful(random);
    let scale = Scale::of(random, &schedule);
    let mut table = designs::empty(schedule);
    let shape = Shape { nodes: random.count(2..=6), couplings: random.count(0..=2) };
    designs::extend(random, &mut table, shape, scale);
    for _ in 0..random.count(2..=12) {
        add_stair(random, &mut table);
    }
    if random.one_in(2) {
        return edges::write_at_edge(random, script, &mut table);
    }
    script.enter(random, &table);
    script.seal_and_verify(random);
    tours::tour(random, script);
}

/// The windows of a node in the round before the last, if there is one, and in the last.
struct Widened {
    node: usize,
    before: Option<Window>,
    last: Window,
}

/// An input that is to be added.
#[derive(Clone, Copy)]
struct Input {
    phase: u8,
    earliest: u32,
    latest: u32,
}

impl Input {
    fn window(self) -> Window {
        Window { begin: i64::from(self.earliest), end: i64::from(self.latest) }
    }
}

/// Adds a coupling which makes one more round, and a node after its victim, if it finds one.
fn add_stair(random: &mut Random, table: &mut Table) {
    let widened = widened(table);
    if widened.is_empty() {
        return;
    }
    for _ in 0..TRIES {
        let Widened { node, before, last } = widened[random.index(widened.len())];
        let old = |window| Wire { phase: table.nodes[node].phase(), window };
        let input = input_near(random, &table.schedule, old(last));
        let new = Wire { phase: input.phase, window: input.window() };
        let is_victim = !table.nodes[node].is_input() && random.one_in(2);
        let sees = |window| {
            let (victim, aggressor) = if is_victim { (old(window), new) } else { (new, old(window)) };
            RULE.sees(&table.schedule, victim, aggressor)
        };
        if sees(last) && !before.is_some_and(sees) {
            return push_stair(random, table, input, node, is_victim);
        }
    }
}

fn push_stair(random: &mut Random, table: &mut Table, input: Input, node: usize, is_victim: bool) {
    let Input { phase, earliest, latest } = input;
    let added = table.nodes.len();
    table.nodes.push(Node::Input { phase, earliest, latest });
    let (victim, aggressor) = if is_victim {
        (node, added)
    } else {
        table.nodes.push(gate(random, table, phase, added));
        (added + 1, node)
    };
    let assisting = random.within(0..=designs::room(table, victim));
    let opposing = random.within(0..=(table.schedule.period / 2).min(GREATEST_FIGURE));
    table.couplings.push(Coupling { victim, aggressor, assisting, opposing });
    let phase = if random.one_in(2) { table.nodes[victim].phase() } else { designs::phase(random, &table.schedule) };
    table.nodes.push(gate(random, table, phase, victim));
}

fn gate(random: &mut Random, table: &Table, phase: u8, source: usize) -> Node {
    let least = random.within(0..=(table.schedule.period / 2).min(GREATEST_FIGURE));
    let greatest = random.within(least..=(least + 2).min(GREATEST_FIGURE));
    Node::Gate { phase, delay: Delay { least, greatest }, sources: vec![source] }
}

/// The nodes whose window is wider in the last round than in the one before; all nodes if there is only one round, and none
/// if a window has no end.
fn widened(table: &Table) -> Vec<Widened> {
    let network = Network::new(table, Order::HighestFirst);
    let mut flags = vec![false; table.couplings.len()];
    let mut before: Option<Vec<Window>> = None;
    loop {
        let Found::Ended(timing) = network.timing(&flags) else {
            return Vec::new();
        };
        let woken = seen_outside(table, RULE, &timing.windows, &flags);
        if woken.is_empty() {
            let before = |node: usize| before.as_ref().map(|before| before[node]);
            let nodes = timing.windows.iter().enumerate();
            let nodes = nodes.map(|(node, &last)| Widened { node, before: before(node), last });
            return nodes.filter(|widened| widened.before != Some(widened.last)).collect();
        }
        for coupling in woken {
            flags[coupling] = true;
        }
        before = Some(timing.windows);
    }
}

/// An input of any phase whose window is narrow and near one end of an occurrence of the window.
fn input_near(random: &mut Random, schedule: &Schedule, wire: Wire) -> Input {
    let phase = designs::phase(random, schedule);
    let end = random.pick(&[wire.window.begin, wire.window.end]);
    let shift = random.pick(&[
        schedule.nearest_shift(wire.phase, phase),
        schedule.forward_shift(wire.phase, phase),
        -schedule.forward_shift(phase, wire.phase),
    ]);
    let period = i64::from(schedule.period);
    let proximity = i64::from(schedule.proximity);
    let occurrence = random.pick(&[-period, 0, 0, period]) + random.pick(&[-proximity, 0, proximity]);
    let off = i64::from(random.within(0..=8)) - 4;
    let time =
        if wire.phase == phase { end + random.pick(&[-proximity, 0, proximity]) } else { end - shift + occurrence };
    let earliest = (time + off).clamp(0, i64::from(GREATEST_TIME)) as u32;
    let latest = (earliest + random.within(0..=2)).min(GREATEST_TIME);
    Input { phase, earliest, latest }
}
