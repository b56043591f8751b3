//! What one round leaves to the next, so that the next looks only where something can have changed.

use super::blocks::{block_of, Leads};
use super::circuit::{Circuit, Coupling, Delays, Node};
use super::in_place::Arrivals;
use super::kinds::{Arrival, Earliest, Latest};
use super::sweeps::Network;
use super::tally::{Tally, Uncounted};
use checker::windows::{Breach, Window};

/// The delays in effect, the figures with which nodes are left, and in which blocks these may not be at rest.
pub struct Carried<'a> {
    circuit: &'a Circuit,
    leads: Leads,
    delays: Vec<Delays>,
    leaves: Vec<Arrivals>,
    stale: Vec<bool>,
}

/// The lowest latch whose window has no end.
pub struct NoEnd {
    pub latch: usize,
}

impl<'a> Carried<'a> {
    /// Before the first round no coupling acts, and every block is stale.
    pub fn begin(circuit: &'a Circuit) -> Carried<'a> {
        let leads = Leads::of(&circuit.nodes);
        let delays: Vec<Delays> = circuit.nodes.iter().map(Node::delays).collect();
        let network = Network { circuit, delays: &delays, leads: &leads };
        let leaves = network.openings();
        let stale = network.all_stale();
        Carried { circuit, leads, delays, leaves, stale }
    }

    /// A coupling acts from now on. Its victim and what the victim leads to may change.
    pub fn act(&mut self, coupling: &Coupling) {
        let victim = usize::from(coupling.victim);
        self.delays[victim].least -= coupling.assisting;
        self.delays[victim].greatest += coupling.opposing;
        self.stale[block_of(victim)] = true;
        self.leads.wake(block_of(victim), &mut self.stale);
    }

    /// Visits nodes where figures are not at rest, until all are.
    pub fn find(&mut self, tally: &mut impl Tally) -> Result<(), NoEnd> {
        let network = Network { circuit: self.circuit, delays: &self.delays, leads: &self.leads };
        if !network.approach(&mut self.leaves, &mut self.stale, tally) {
            self.leaves = network.sweep_anew(tally)?;
            self.stale.fill(false);
        }
        Ok(())
    }

    /// From the earliest with which a node is left to the latest.
    pub fn window(&self, v: usize) -> Window {
        Window { begin: tick(self.leaves[v].earliest), end: tick(self.leaves[v].latest) }
    }

    pub fn late_latch(&self) -> Option<Breach> {
        self.lowest_breach(|node, came| match node {
            Node::Latch { setup, .. } => Some(tick(came.latest) - (self.circuit.clock.period - setup)),
            _ => None,
        })
    }

    pub fn early_latch(&self) -> Option<Breach> {
        self.lowest_breach(|node, came| match node {
            Node::Latch { hold, .. } => Some(hold - tick(came.earliest)),
            _ => None,
        })
    }

    fn lowest_breach(&self, excess: impl Fn(&Node, Arrivals) -> Option<i64>) -> Option<Breach> {
        let network = Network { circuit: self.circuit, delays: &self.delays, leads: &self.leads };
        self.circuit.nodes.iter().enumerate().filter(|(_, node)| node.is_latch()).find_map(|(latch, node)| {
            let came = network.comes(&self.leaves, latch, &mut Uncounted);
            let excess = excess(node, came).filter(|&excess| excess > 0)?;
            Some(Breach { latch, excess })
        })
    }
}

impl Network<'_> {
    /// Sweeps from the opening edges, which tell where a window has no end.
    fn sweep_anew(&self, tally: &mut impl Tally) -> Result<Vec<Arrivals>, NoEnd> {
        let nodes = self.circuit.nodes.len();
        let mut starts = self.first_starts::<Latest>();
        let mut latest = vec![Arrival::NoPath; nodes];
        self.settle(&mut starts, &mut latest, tally);
        if let Some(latch) = self.lowest_without_end(&starts) {
            return Err(NoEnd { latch });
        }
        let openings = self.first_starts::<Earliest>();
        let mut earliest = vec![Arrival::NoPath; nodes];
        self.sweep::<Earliest>(&openings, &mut earliest, &mut self.all_stale(), tally);
        let left = |v| Arrivals {
            latest: self.leaving(&starts, &latest, v),
            earliest: self.leaving(&openings, &earliest, v),
        };
        Ok((0..nodes).map(left).collect())
    }
}

/// The figure of a node which has paths, and whose figures have an end.
fn tick(arrival: Arrival) -> i64 {
    match arrival {
        Arrival::At(tick) => tick,
        Arrival::NoPath | Arrival::NoEnd => unreachable!("every node has paths, and an end"),
    }
}
