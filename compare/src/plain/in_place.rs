//! Nodes visited in place, by both kinds at once: each is left at once with what came to it.

use super::blocks::places;
use super::circuit::Node;
use super::kinds::{Arrival, Earliest, Kind, Latest};
use super::sweeps::Network;
use super::tally::Tally;

/// How many passes are made at most before sweeps settle what still climbs.
const PASSES: usize = 16;

/// A figure of each kind.
#[derive(Clone, Copy, PartialEq, Eq)]
pub struct Arrivals {
    pub latest: Arrival,
    pub earliest: Arrival,
}

impl Arrivals {
    pub const NONE: Arrivals = Arrivals { latest: Arrival::NoPath, earliest: Arrival::NoPath };
}

impl Network<'_> {
    /// What nodes are left with before any visit: a latch with its opening edge.
    pub fn openings(&self) -> Vec<Arrivals> {
        let opening = |node: &Node| match node {
            Node::Latch { .. } => Arrivals { latest: self.start::<Latest>(node), earliest: self.start::<Earliest>(node) },
            _ => Arrivals::NONE,
        };
        self.circuit.nodes.iter().map(opening).collect()
    }

    /// What comes to a node along all of its connections.
    pub fn comes(&self, leaves: &[Arrivals], v: usize, tally: &mut impl Tally) -> Arrivals {
        let node = &self.circuit.nodes[v];
        let mut came = match node {
            Node::Input { .. } => Arrivals { latest: self.start::<Latest>(node), earliest: self.start::<Earliest>(node) },
            _ => Arrivals::NONE,
        };
        let sources = node.sources();
        for &source in sources {
            let from = usize::from(source);
            let shift = self.circuit.shift(&self.circuit.nodes[from], node);
            let latest = leaves[from].latest.after(self.delays[from].greatest.saturating_sub(shift));
            let earliest = leaves[from].earliest.after(self.delays[from].least.saturating_sub(shift));
            came = Arrivals { latest: Latest::join(came.latest, latest), earliest: Earliest::join(came.earliest, earliest) };
        }
        tally.connections(sources.len());
        came
    }

    /// Passes over stale blocks until none is stale, or so many are made. Answers whether none is stale.
    pub fn approach(&self, leaves: &mut [Arrivals], stale: &mut [bool], tally: &mut impl Tally) -> bool {
        for _ in 0..PASSES {
            if !stale.contains(&true) {
                return true;
            }
            self.pass(leaves, stale, tally);
        }
        !stale.contains(&true)
    }

    fn pass(&self, leaves: &mut [Arrivals], stale: &mut [bool], tally: &mut impl Tally) {
        tally.sweep();
        for block in 0..stale.len() {
            if stale[block] {
                stale[block] = false;
                if self.visit_block(leaves, block, tally) {
                    self.leads.wake(block, stale);
                }
            }
        }
    }

    /// Visits the nodes of a block in their order, and answers whether one is left with another figure.
    fn visit_block(&self, leaves: &mut [Arrivals], block: usize, tally: &mut impl Tally) -> bool {
        let mut changed = false;
        for v in places(block, self.circuit.nodes.len()) {
            let left = self.visited(leaves, v, tally);
            if left != leaves[v] {
                leaves[v] = left;
                changed = true;
            }
        }
        changed
    }

    fn visited(&self, leaves: &[Arrivals], v: usize, tally: &mut impl Tally) -> Arrivals {
        let came = self.comes(leaves, v, tally);
        if !self.circuit.nodes[v].is_latch() {
            came
        } else if came.latest.is_later_than(leaves[v].latest) {
            Arrivals { latest: came.latest, ..leaves[v] }
        } else {
            leaves[v]
        }
    }
}
