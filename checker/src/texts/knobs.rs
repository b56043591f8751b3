//! The figures of a table, each of which can be set to another value with which calls would still make the table.

use std::ops::RangeInclusive;

use super::designs;
use crate::clock::GREATEST_TIME;
use crate::design::{Delay, Node, Table, GREATEST_FIGURE};
use crate::random::Random;

/// A figure of a table. Nodes and couplings are named by number, phases by their place.
#[derive(Clone, Copy, Debug)]
pub enum Knob {
    Period,
    Proximity,
    Start(usize),
    Width(usize),
    Earliest(usize),
    Latest(usize),
    Least(usize),
    Greatest(usize),
    Setup(usize),
    Hold(usize),
    Assisting(usize),
    Opposing(usize),
}

impl Knob {
    pub fn of(random: &mut Random, table: &Table) -> Knob {
        let phase = random.index(table.schedule.phases.len());
        let clock = [Knob::Period, Knob::Proximity, Knob::Start(phase), Knob::Width(phase)];
        match random.below(4) {
            0 => random.pick(&clock),
            1 if !table.couplings.is_empty() => {
                let coupling = random.index(table.couplings.len());
                random.pick(&[Knob::Assisting(coupling), Knob::Opposing(coupling)])
            }
            _ => {
                let node = random.index(table.nodes.len());
                match &table.nodes[node] {
                    Node::Input { .. } => random.pick(&[Knob::Earliest(node), Knob::Latest(node)]),
                    Node::Gate { .. } => random.pick(&[Knob::Least(node), Knob::Greatest(node)]),
                    Node::Latch { .. } => {
                        random.pick(&[Knob::Least(node), Knob::Greatest(node), Knob::Setup(node), Knob::Hold(node)])
                    }
                }
            }
        }
    }

    pub fn is_of_clock(self) -> bool {
        matches!(self, Knob::Period | Knob::Proximity | Knob::Start(_) | Knob::Width(_))
    }

    /// The values with which the table stays one that calls make.
    pub fn range(self, table: &Table) -> RangeInclusive<u32> {
        let clock = &table.schedule;
        match self {
            Knob::Period => {
                let starts = clock.phases.iter().map(|phase| phase.start + 1);
                let widths = clock.phases.iter().map(|phase| phase.width);
                let least = starts.chain(widths).max().unwrap_or(0).max(clock.proximity + 1).max(2);
                least..=clock.period.saturating_mul(4).min(GREATEST_TIME)
            }
            Knob::Proximity => 0..=clock.period - 1,
            Knob::Start(phase) => {
                let before = phase.checked_sub(1).map_or(0, |before| clock.phases[before].start);
                let after = clock.phases.get(phase + 1).map_or(clock.period - 1, |after| after.start);
                before..=after
            }
            Knob::Width(_) => 1..=clock.period,
            Knob::Earliest(node) => match table.nodes[node] {
                Node::Input { latest, .. } => 0..=latest,
                _ => 0..=0,
            },
            Knob::Latest(node) => match table.nodes[node] {
                Node::Input { earliest, .. } => earliest..=GREATEST_TIME,
                _ => 0..=0,
            },
            Knob::Least(node) => {
                let Delay { least, greatest } = table.nodes[node].delay();
                least - designs::room(table, node)..=greatest
            }
            Knob::Greatest(node) => table.nodes[node].delay().least..=GREATEST_FIGURE,
            Knob::Setup(_) | Knob::Hold(_) | Knob::Opposing(_) => 0..=GREATEST_FIGURE,
            Knob::Assisting(coupling) => {
                let coupling = &table.couplings[coupling];
                0..=coupling.assisting + designs::room(table, coupling.victim)
            }
        }
    }

    pub fn set(self, table: &mut Table, value: u32) {
        let clock = &mut table.schedule;
        match self {
            Knob::Period => clock.period = value,
            Knob::Proximity => clock.proximity = value,
            Knob::Start(phase) => clock.phases[phase].start = value,
            Knob::Width(phase) => clock.phases[phase].width = value,
            Knob::Assisting(coupling) => table.couplings[coupling].assisting = value,
            Knob::Opposing(coupling) => table.couplings[coupling].opposing = value,
            Knob::Earliest(node)
            | Knob::Latest(node)
            | Knob::Least(node)
            | Knob::Greatest(node)
            | Knob::Setup(node)
            | Knob::Hold(node) => self.set_of_node(&mut table.nodes[node], value),
        }
    }

    fn set_of_node(self, node: &mut Node, value: u32) {
        match (self, node) {
            (Knob::Earliest(_), Node::Input { earliest, .. }) => *earliest = value,
            (Knob::Latest(_), Node::Input { latest, .. }) => *latest = value,
            (Knob::Least(_), Node::Gate { delay, .. } | Node::Latch { delay, .. }) => delay.least = value,
            (Knob::Greatest(_), Node::Gate { delay, .. } | Node::Latch { delay, .. }) => delay.greatest = value,
            (Knob::Setup(_), Node::Latch { setup, .. }) => *setup = value,
            (Knob::Hold(_), Node::Latch { hold, .. }) => *hold = value,
            _ => {}
        }
    }
}
