//! Sweeps, which fill a column with the figure that arrives at each node, and visit only the blocks in which it may change.

use super::blocks::{blocks, places, Leads};
use super::circuit::{Circuit, Delays, Node};
use super::kinds::{Arrival, Kind, Latest};
use super::tally::Tally;

/// A circuit under a set of couplings.
pub struct Network<'a> {
    pub circuit: &'a Circuit,
    pub delays: &'a [Delays],
    pub leads: &'a Leads,
}

impl Network<'_> {
    /// What each latch starts from before anything came to it; other nodes have places too.
    pub fn first_starts<K: Kind>(&self) -> Vec<Arrival> {
        self.circuit.nodes.iter().map(|node| self.start::<K>(node)).collect()
    }

    pub fn start<K: Kind>(&self, node: &Node) -> Arrival {
        match *node {
            Node::Input { earliest, latest, .. } => Arrival::At(K::start(earliest, latest)),
            Node::Gate { .. } => Arrival::NoPath,
            Node::Latch { phase, .. } => Arrival::At(self.circuit.clock.opening_edge(phase)),
        }
    }

    /// The figure with which a node is left.
    pub fn leaving(&self, starts: &[Arrival], column: &[Arrival], v: usize) -> Arrival {
        if self.circuit.nodes[v].is_latch() {
            starts[v]
        } else {
            column[v]
        }
    }

    fn arrival<K: Kind>(&self, starts: &[Arrival], column: &[Arrival], v: usize, tally: &mut impl Tally) -> Arrival {
        let node = &self.circuit.nodes[v];
        let mut figure = match node {
            Node::Input { .. } => self.start::<K>(node),
            _ => Arrival::NoPath,
        };
        let sources = node.sources();
        for &source in sources {
            let from = usize::from(source);
            let gain = K::delay(self.delays[from]).saturating_sub(self.circuit.shift(&self.circuit.nodes[from], node));
            figure = K::join(figure, self.leaving(starts, column, from).after(gain));
        }
        tally.connections(sources.len());
        figure
    }

    /// Fills a block but for its latches, and answers whether a figure changed.
    fn fill_gates<K: Kind>(
        &self,
        starts: &[Arrival],
        column: &mut [Arrival],
        block: usize,
        tally: &mut impl Tally,
    ) -> bool {
        let mut changed = false;
        for v in places(block, self.circuit.nodes.len()) {
            if !self.circuit.nodes[v].is_latch() {
                let figure = self.arrival::<K>(starts, column, v, tally);
                changed |= figure != column[v];
                column[v] = figure;
            }
        }
        changed
    }

    fn fill_latches<K: Kind>(&self, starts: &[Arrival], column: &mut [Arrival], block: usize, tally: &mut impl Tally) {
        for v in places(block, self.circuit.nodes.len()) {
            if self.circuit.nodes[v].is_latch() {
                column[v] = self.arrival::<K>(starts, column, v, tally);
            }
        }
    }

    /// One sweep. A block in which a figure changed makes those stale that it leads to.
    pub fn sweep<K: Kind>(
        &self,
        starts: &[Arrival],
        column: &mut [Arrival],
        stale: &mut [bool],
        tally: &mut impl Tally,
    ) {
        tally.sweep();
        for block in 0..stale.len() {
            if stale[block] && self.fill_gates::<K>(starts, column, block, tally) {
                self.leads.wake(block, stale);
            }
        }
        for (block, _) in stale.iter().enumerate().filter(|(_, stale)| **stale) {
            self.fill_latches::<K>(starts, column, block, tally);
        }
    }

    /// Lets each latch of a stale block start from what came to it, where that is later, and answers the blocks that are
    /// then stale, if a latch climbed.
    fn pass_on(&self, starts: &mut [Arrival], column: &[Arrival], stale: &[bool], has_end: bool) -> Option<Vec<bool>> {
        let mut next = vec![false; stale.len()];
        let mut climbs = false;
        for (block, _) in stale.iter().enumerate().filter(|(_, stale)| **stale) {
            if self.pass_block_on(starts, column, block, has_end) {
                climbs = true;
                next[block] = true;
                self.leads.wake(block, &mut next);
            }
        }
        climbs.then_some(next)
    }

    fn pass_block_on(&self, starts: &mut [Arrival], column: &[Arrival], block: usize, has_end: bool) -> bool {
        let mut climbs = false;
        for v in places(block, self.circuit.nodes.len()) {
            if self.circuit.nodes[v].is_latch() && column[v].is_later_than(starts[v]) {
                starts[v] = if has_end { column[v] } else { Arrival::NoEnd };
                climbs = true;
            }
        }
        climbs
    }

    /// Sweeps of the latest kind until no latch climbs. One that climbs after as many sweeps as there are latches has no
    /// end.
    pub fn settle(&self, starts: &mut [Arrival], column: &mut [Arrival], tally: &mut impl Tally) {
        let latches = self.circuit.nodes.iter().filter(|node| node.is_latch()).count();
        let mut stale = self.all_stale();
        let mut made = 0;
        loop {
            self.sweep::<Latest>(starts, column, &mut stale, tally);
            match self.pass_on(starts, column, &stale, made < latches) {
                Some(next) => stale = next,
                None => return,
            }
            made += 1;
        }
    }

    /// The lowest latch that starts without an end.
    pub fn lowest_without_end(&self, starts: &[Arrival]) -> Option<usize> {
        let mut nodes = self.circuit.nodes.iter().zip(starts);
        nodes.position(|(node, start)| node.is_latch() && *start == Arrival::NoEnd)
    }

    pub fn all_stale(&self) -> Vec<bool> {
        vec![true; blocks(self.circuit.nodes.len())]
    }
}
