//! A table as sweeps read it.

use checker::design;

/// The clock, in arrays of a fixed size, with phase 1 in the first place.
#[derive(Clone)]
pub struct Clock {
    pub period: i64,
    pub proximity: i64,
    starts: [i64; 16],
    widths: [i64; 16],
}

#[derive(Clone, Copy)]
pub struct Delays {
    pub least: i64,
    pub greatest: i64,
}

/// The first `count` places of `nodes`.
#[derive(Clone, Copy)]
pub struct Sources {
    count: u8,
    nodes: [u16; 4],
}

#[derive(Clone)]
pub enum Node {
    Input { phase: u8, earliest: i64, latest: i64 },
    Gate { phase: u8, delays: Delays, sources: Sources },
    Latch { phase: u8, delays: Delays, setup: i64, hold: i64, source: u16 },
}

#[derive(Clone)]
pub struct Coupling {
    pub victim: u16,
    pub aggressor: u16,
    pub assisting: i64,
    pub opposing: i64,
}

#[derive(Clone)]
pub struct Circuit {
    pub clock: Clock,
    pub nodes: Vec<Node>,
    pub couplings: Vec<Coupling>,
}

impl Clock {
    fn of(schedule: &checker::clock::Schedule) -> Clock {
        let mut clock = Clock {
            period: i64::from(schedule.period),
            proximity: i64::from(schedule.proximity),
            starts: [0; 16],
            widths: [0; 16],
        };
        for (place, phase) in schedule.phases.iter().enumerate() {
            clock.starts[place] = i64::from(phase.start);
            clock.widths[place] = i64::from(phase.width);
        }
        clock
    }

    pub fn opening_edge(&self, phase: u8) -> i64 {
        self.period - self.widths[usize::from(phase) - 1]
    }

    pub fn forward_shift(&self, from: u8, to: u8) -> i64 {
        let gap = self.gap(from, to);
        if from < to {
            gap
        } else {
            gap + self.period
        }
    }

    pub fn nearest_shift(&self, from: u8, to: u8) -> i64 {
        let gap = self.gap(from, to);
        if 2 * gap < -self.period {
            gap + self.period
        } else if 2 * gap > self.period {
            gap - self.period
        } else {
            gap
        }
    }

    fn gap(&self, from: u8, to: u8) -> i64 {
        self.starts[usize::from(to) - 1] - self.starts[usize::from(from) - 1]
    }
}

impl Delays {
    fn of(delay: design::Delay) -> Delays {
        Delays { least: i64::from(delay.least), greatest: i64::from(delay.greatest) }
    }
}

impl Sources {
    fn of(list: &[usize]) -> Sources {
        let mut nodes = [0; 4];
        for (place, &source) in nodes.iter_mut().zip(list) {
            *place = number(source);
        }
        Sources { count: list.len() as u8, nodes }
    }

    fn list(&self) -> &[u16] {
        &self.nodes[..usize::from(self.count)]
    }
}

impl Node {
    fn of(node: &design::Node) -> Node {
        match node {
            design::Node::Input { phase, earliest, latest } => {
                Node::Input { phase: *phase, earliest: i64::from(*earliest), latest: i64::from(*latest) }
            }
            design::Node::Gate { phase, delay, sources } => {
                Node::Gate { phase: *phase, delays: Delays::of(*delay), sources: Sources::of(sources) }
            }
            design::Node::Latch { phase, delay, setup, hold, source } => Node::Latch {
                phase: *phase,
                delays: Delays::of(*delay),
                setup: i64::from(*setup),
                hold: i64::from(*hold),
                source: number(source.expect("a sealed table has fed latches")),
            },
        }
    }

    pub fn phase(&self) -> u8 {
        match self {
            Node::Input { phase, .. } | Node::Gate { phase, .. } | Node::Latch { phase, .. } => *phase,
        }
    }

    pub fn delays(&self) -> Delays {
        match self {
            Node::Input { .. } => Delays { least: 0, greatest: 0 },
            Node::Gate { delays, .. } | Node::Latch { delays, .. } => *delays,
        }
    }

    pub fn is_latch(&self) -> bool {
        matches!(self, Node::Latch { .. })
    }

    pub fn sources(&self) -> &[u16] {
        match self {
            Node::Input { .. } => &[],
            Node::Gate { sources, .. } => sources.list(),
            Node::Latch { source, .. } => std::slice::from_ref(source),
        }
    }
}

impl Circuit {
    /// The circuit of a sealed table.
    pub fn of(table: &design::Table) -> Circuit {
        let coupling = |coupling: &design::Coupling| Coupling {
            victim: number(coupling.victim),
            aggressor: number(coupling.aggressor),
            assisting: i64::from(coupling.assisting),
            opposing: i64::from(coupling.opposing),
        };
        Circuit {
            clock: Clock::of(&table.schedule),
            nodes: table.nodes.iter().map(Node::of).collect(),
            couplings: table.couplings.iter().map(coupling).collect(),
        }
    }

    /// What is subtracted from a time that goes from one node to another.
    pub fn shift(&self, from: &Node, to: &Node) -> i64 {
        if to.is_latch() || from.phase() != to.phase() {
            self.clock.forward_shift(from.phase(), to.phase())
        } else {
            0
        }
    }
}

fn number(node: usize) -> u16 {
    u16::try_from(node).expect("nodes have numbers of two bytes")
}
