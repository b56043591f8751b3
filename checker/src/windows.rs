//! The windows of a table under a set of its couplings, by relaxing connections until nothing changes.
//!
//! A pass goes along all connections, in an order which has nothing to do with that of the nodes. After as many passes as
//! there are nodes every figure of a path without a repeated node is accounted for, so what still changes in a pass after
//! that is led to by a ring that gains.

use crate::design::{Node, Table};
use crate::random::Random;

#[derive(Clone, Copy, Debug, PartialEq, Eq)]
pub struct Window {
    pub begin: i64,
    pub end: i64,
}

impl Window {
    pub fn includes(&self, other: &Window) -> bool {
        self.begin <= other.begin && self.end >= other.end
    }
}

/// A latch that is late or early, and by how much.
#[derive(Clone, Copy, Debug, PartialEq, Eq)]
pub struct Breach {
    pub latch: usize,
    pub excess: i64,
}

/// The windows of all nodes, and the lowest late and the lowest early latch.
#[derive(Clone, Debug, PartialEq, Eq)]
pub struct Timing {
    pub windows: Vec<Window>,
    pub late: Option<Breach>,
    pub early: Option<Breach>,
}

#[derive(Clone, Debug, PartialEq, Eq)]
pub enum Found {
    Ended(Timing),
    /// Some window has no end; the latch is the lowest whose window has none.
    NoEnd {
        latch: usize,
    },
}

/// In which order a pass goes along the connections.
#[derive(Clone, Copy, Debug, PartialEq, Eq)]
pub enum Order {
    HighestFirst,
    Shuffled(u64),
}

#[derive(Clone, Copy, Debug)]
struct Connection {
    from: usize,
    to: usize,
    shift: i64,
}

/// The connections of a table, which no set of couplings changes.
pub struct Network<'a> {
    table: &'a Table,
    connections: Vec<Connection>,
}

/// The least and the greatest delay of each node under a set of couplings.
struct Delays {
    least: Vec<i64>,
    greatest: Vec<i64>,
}

impl<'a> Network<'a> {
    pub fn new(table: &'a Table, order: Order) -> Self {
        let mut connections = Vec::new();
        for (to, node) in table.nodes.iter().enumerate().rev() {
            for &from in node.sources() {
                connections.push(Connection { from, to, shift: shift(table, from, to) });
            }
        }
        if let Order::Shuffled(seed) = order {
            Random::new(seed).shuffle(&mut connections);
        }
        Network { table, connections }
    }

    /// The windows under the set of couplings whose flag is set. Every latch of the table is fed.
    pub fn timing(&self, flags: &[bool]) -> Found {
        let delays = self.delays(flags);
        let ends = match self.ends(&delays.greatest) {
            Ok(ends) => ends,
            Err(without_end) => return self.no_end(&without_end),
        };
        let begins = self.begins(&delays.least);
        let latest = self.arrivals(&ends, &delays.greatest, i64::max);
        let earliest = self.arrivals(&begins, &delays.least, i64::min);
        let late = self.lowest_breach(&latest, |setup, _, arrival| arrival - (self.period() - setup));
        let early = self.lowest_breach(&earliest, |_, hold, arrival| hold - arrival);
        let window = |(&begin, &end): (&Option<i64>, &Option<i64>)| Window { begin: figure(begin), end: figure(end) };
        Found::Ended(Timing { windows: begins.iter().zip(&ends).map(window).collect(), late, early })
    }

    fn delays(&self, flags: &[bool]) -> Delays {
        let own = |node: &Node| (i64::from(node.delay().least), i64::from(node.delay().greatest));
        let (mut least, mut greatest): (Vec<i64>, Vec<i64>) = self.table.nodes.iter().map(own).unzip();
        let acting = self.table.couplings.iter().zip(flags).filter(|(_, &set)| set);
        for (coupling, _) in acting {
            least[coupling.victim] -= i64::from(coupling.assisting);
            greatest[coupling.victim] += i64::from(coupling.opposing);
        }
        Delays { least, greatest }
    }

    /// The greatest late figure of all paths to each node, or else for each node whether its late figures grow past every
    /// number.
    fn ends(&self, greatest: &[i64]) -> Result<Vec<Option<i64>>, Vec<bool>> {
        let mut ends: Vec<Option<i64>> = self.table.nodes.iter().map(|node| self.late_start(node)).collect();
        let mut passes = 0;
        loop {
            let grown = self.late_pass(&mut ends, greatest);
            passes += 1;
            if grown.is_empty() {
                return Ok(ends);
            }
            if passes == self.table.nodes.len() {
                return Err(self.reached(&grown));
            }
        }
    }

    /// Relaxes the late figure along each connection once, and answers the nodes whose figure grew.
    fn late_pass(&self, ends: &mut [Option<i64>], greatest: &[i64]) -> Vec<usize> {
        let mut grown = Vec::new();
        for connection in &self.connections {
            let carried = ends[connection.from].map(|end| end + greatest[connection.from] - connection.shift);
            if carried > ends[connection.to] {
                ends[connection.to] = carried;
                grown.push(connection.to);
            }
        }
        grown
    }

    /// The nodes that connections lead to from the given ones, which are among them.
    fn reached(&self, origins: &[usize]) -> Vec<bool> {
        let mut reached = vec![false; self.table.nodes.len()];
        for &origin in origins {
            reached[origin] = true;
        }
        loop {
            let mut more = false;
            for connection in &self.connections {
                if reached[connection.from] && !reached[connection.to] {
                    reached[connection.to] = true;
                    more = true;
                }
            }
            if !more {
                return reached;
            }
        }
    }

    /// The least early figure of the short paths to each node; a latch begins at its opening edge, whatever arrives there.
    fn begins(&self, least: &[i64]) -> Vec<Option<i64>> {
        let mut begins: Vec<Option<i64>> = self.table.nodes.iter().map(|node| self.early_start(node)).collect();
        loop {
            let mut changed = false;
            for connection in self.connections.iter().filter(|entering| !self.table.nodes[entering.to].is_latch()) {
                let carried = begins[connection.from].map(|begin| begin + least[connection.from] - connection.shift);
                let known = begins[connection.to];
                if carried.is_some() && (known.is_none() || carried < known) {
                    begins[connection.to] = carried;
                    changed = true;
                }
            }
            if !changed {
                return begins;
            }
        }
    }

    fn late_start(&self, node: &Node) -> Option<i64> {
        match node {
            Node::Input { latest, .. } => Some(i64::from(*latest)),
            Node::Gate { .. } => None,
            Node::Latch { phase, .. } => Some(self.table.schedule.opening_edge(*phase)),
        }
    }

    fn early_start(&self, node: &Node) -> Option<i64> {
        match node {
            Node::Input { earliest, .. } => Some(i64::from(*earliest)),
            Node::Gate { .. } => None,
            Node::Latch { phase, .. } => Some(self.table.schedule.opening_edge(*phase)),
        }
    }

    /// What arrives at each node along its connections, joined.
    fn arrivals(&self, figures: &[Option<i64>], delays: &[i64], join: fn(i64, i64) -> i64) -> Vec<Option<i64>> {
        let mut arrivals: Vec<Option<i64>> = vec![None; figures.len()];
        for connection in &self.connections {
            let arrival = figure(figures[connection.from]) + delays[connection.from] - connection.shift;
            let joined = arrivals[connection.to].map_or(arrival, |other| join(other, arrival));
            arrivals[connection.to] = Some(joined);
        }
        arrivals
    }

    /// The lowest latch whose excess, of its setup, its hold and what arrives there, is above 0.
    fn lowest_breach(&self, arrivals: &[Option<i64>], excess: impl Fn(i64, i64, i64) -> i64) -> Option<Breach> {
        self.table.nodes.iter().zip(arrivals).enumerate().find_map(|(latch, (node, arrival))| match node {
            Node::Latch { setup, hold, .. } => {
                let excess = excess(i64::from(*setup), i64::from(*hold), (*arrival)?);
                (excess > 0).then_some(Breach { latch, excess })
            }
            _ => None,
        })
    }

    fn period(&self) -> i64 {
        i64::from(self.table.schedule.period)
    }

    fn no_end(&self, without_end: &[bool]) -> Found {
        let latch = (0..self.table.nodes.len()).find(|&node| without_end[node] && self.table.nodes[node].is_latch());
        Found::NoEnd { latch: latch.expect("every ring has a latch") }
    }
}

fn figure(figure: Option<i64>) -> i64 {
    figure.expect("every node has a path")
}

/// What is subtracted from a time that goes along a connection.
pub fn shift(table: &Table, from: usize, to: usize) -> i64 {
    let leaves = table.nodes[from].phase();
    let enters = table.nodes[to].phase();
    if table.nodes[to].is_latch() || leaves != enters {
        table.schedule.forward_shift(leaves, enters)
    } else {
        0
    }
}
