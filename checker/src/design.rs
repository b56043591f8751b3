//! Design tables, and the tests of the calls that make them.

use crate::clock::{Schedule, GREATEST_TIME};

/// The greatest delay, setup, hold or amount.
pub const GREATEST_FIGURE: u32 = 1_048_575;
pub const MOST_SOURCES: usize = 4;

#[derive(Clone, Copy, Debug, PartialEq, Eq, PartialOrd, Ord)]
pub enum Refusal {
    Full = 1,
    Phase,
    Span,
    Figure,
    Fan,
    Node,
    Pair,
    Assist,
    Clock,
    Unfed,
    Short,
    Digits,
    Frame,
    Order,
}

impl Refusal {
    pub fn number(self) -> u8 {
        self as u8
    }
}

#[derive(Clone, Copy, Debug, PartialEq, Eq)]
pub struct Delay {
    pub least: u32,
    pub greatest: u32,
}

#[derive(Clone, Debug, PartialEq, Eq)]
pub enum Node {
    Input { phase: u8, earliest: u32, latest: u32 },
    Gate { phase: u8, delay: Delay, sources: Vec<usize> },
    Latch { phase: u8, delay: Delay, setup: u32, hold: u32, source: Option<usize> },
}

impl Node {
    pub fn phase(&self) -> u8 {
        match self {
            Node::Input { phase, .. } | Node::Gate { phase, .. } | Node::Latch { phase, .. } => *phase,
        }
    }

    pub fn delay(&self) -> Delay {
        match self {
            Node::Input { .. } => Delay { least: 0, greatest: 0 },
            Node::Gate { delay, .. } | Node::Latch { delay, .. } => *delay,
        }
    }

    pub fn is_input(&self) -> bool {
        matches!(self, Node::Input { .. })
    }

    pub fn is_latch(&self) -> bool {
        matches!(self, Node::Latch { .. })
    }

    pub fn sources(&self) -> &[usize] {
        match self {
            Node::Input { .. } => &[],
            Node::Gate { sources, .. } => sources,
            Node::Latch { source, .. } => source.as_slice(),
        }
    }
}

#[derive(Clone, Debug, PartialEq, Eq)]
pub struct Coupling {
    pub victim: usize,
    pub aggressor: usize,
    pub assisting: u32,
    pub opposing: u32,
}

/// How many nodes and couplings a book takes.
#[derive(Clone, Copy, Debug, PartialEq, Eq)]
pub struct Size {
    pub nodes: usize,
    pub couplings: usize,
}

#[derive(Clone, Debug, PartialEq, Eq)]
pub struct Table {
    pub size: Size,
    pub schedule: Schedule,
    pub nodes: Vec<Node>,
    pub couplings: Vec<Coupling>,
}

fn refuse_if(applies: bool, refusal: Refusal) -> Result<(), Refusal> {
    if applies {
        Err(refusal)
    } else {
        Ok(())
    }
}

impl Table {
    /// An empty table under the schedule, if this is lawful.
    pub fn open(schedule: Schedule, size: Size) -> Result<Table, Refusal> {
        refuse_if(!schedule.is_lawful(), Refusal::Clock)?;
        Ok(Table { size, schedule, nodes: Vec::new(), couplings: Vec::new() })
    }

    pub fn retime(&mut self, schedule: Schedule) -> Result<(), Refusal> {
        let other = schedule.phases.len() != self.schedule.phases.len();
        refuse_if(!schedule.is_lawful() || other, Refusal::Clock)?;
        self.schedule = schedule;
        Ok(())
    }

    pub fn add_input(&mut self, phase: u8, earliest: u32, latest: u32) -> Result<usize, Refusal> {
        self.test_new_node(phase)?;
        refuse_if(earliest > latest, Refusal::Span)?;
        refuse_if(earliest > GREATEST_TIME || latest > GREATEST_TIME, Refusal::Figure)?;
        Ok(self.grant(Node::Input { phase, earliest, latest }))
    }

    pub fn add_gate(&mut self, phase: u8, delay: Delay, sources: &[u16]) -> Result<usize, Refusal> {
        self.test_new_node(phase)?;
        test_delay(delay)?;
        refuse_if(!(1..=MOST_SOURCES).contains(&sources.len()), Refusal::Fan)?;
        let sources = sources.iter().map(|&source| self.numbered(source)).collect::<Result<Vec<usize>, Refusal>>()?;
        Ok(self.grant(Node::Gate { phase, delay, sources }))
    }

    pub fn add_latch(&mut self, phase: u8, delay: Delay, setup: u32, hold: u32) -> Result<usize, Refusal> {
        self.test_new_node(phase)?;
        refuse_if(delay.least > delay.greatest, Refusal::Span)?;
        let figures = [delay.least, delay.greatest, setup, hold];
        refuse_if(figures.iter().any(|&figure| figure > GREATEST_FIGURE), Refusal::Figure)?;
        Ok(self.grant(Node::Latch { phase, delay, setup, hold, source: None }))
    }

    pub fn feed(&mut self, latch: u16, from: u16) -> Result<(), Refusal> {
        let latch = self.numbered(latch)?;
        let from = self.numbered(from)?;
        match &mut self.nodes[latch] {
            Node::Latch { source, .. } => *source = Some(from),
            _ => return Err(Refusal::Node),
        }
        Ok(())
    }

    pub fn couple(&mut self, victim: u16, aggressor: u16, assisting: u32, opposing: u32) -> Result<usize, Refusal> {
        refuse_if(self.couplings.len() >= self.size.couplings, Refusal::Full)?;
        refuse_if(assisting > GREATEST_FIGURE || opposing > GREATEST_FIGURE, Refusal::Figure)?;
        let victim = self.numbered(victim)?;
        let aggressor = self.numbered(aggressor)?;
        refuse_if(self.nodes[victim].is_input(), Refusal::Node)?;
        let same = |coupling: &&Coupling| coupling.victim == victim && coupling.aggressor == aggressor;
        refuse_if(victim == aggressor || self.couplings.iter().find(same).is_some(), Refusal::Pair)?;
        let assisted = self.assisted(victim) + u64::from(assisting);
        refuse_if(assisted > u64::from(self.nodes[victim].delay().least), Refusal::Assist)?;
        self.couplings.push(Coupling { victim, aggressor, assisting, opposing });
        Ok(self.couplings.len() - 1)
    }

    /// Whether every latch has a source, as a seal asks.
    pub fn test_seal(&self) -> Result<(), Refusal> {
        refuse_if(self.nodes.iter().any(|node| node.is_latch() && node.sources().is_empty()), Refusal::Unfed)
    }

    /// The sum of the assisting amounts of a victim.
    pub fn assisted(&self, victim: usize) -> u64 {
        let of_victim = self.couplings.iter().filter(|coupling| coupling.victim == victim);
        of_victim.map(|coupling| u64::from(coupling.assisting)).sum()
    }

    fn test_new_node(&self, phase: u8) -> Result<(), Refusal> {
        refuse_if(self.nodes.len() >= self.size.nodes, Refusal::Full)?;
        refuse_if(!self.schedule.has_phase(phase), Refusal::Phase)
    }

    fn numbered(&self, number: u16) -> Result<usize, Refusal> {
        let number = usize::from(number);
        refuse_if(number >= self.nodes.len(), Refusal::Node)?;
        Ok(number)
    }

    fn grant(&mut self, node: Node) -> usize {
        self.nodes.push(node);
        self.nodes.len() - 1
    }
}

fn test_delay(delay: Delay) -> Result<(), Refusal> {
    refuse_if(delay.least > delay.greatest, Refusal::Span)?;
    refuse_if(delay.least > GREATEST_FIGURE || delay.greatest > GREATEST_FIGURE, Refusal::Figure)
}
