//! A design that is being made: the frames of its table, in which nodes and couplings have the numbers that a book grants.

use checker::clock::Schedule;
use checker::design::{Delay, Size, Table};
use checker::frames::Frame;
use checker::session::Session;
use ravokimpy::{MOST_COUPLINGS, MOST_NODES};

/// How much a book takes.
pub const SIZE: Size = Size { nodes: MOST_NODES, couplings: MOST_COUPLINGS };

#[derive(Clone)]
pub struct Design {
    frames: Vec<Frame>,
    nodes: usize,
    couplings: usize,
}

#[derive(Clone, Copy)]
pub struct Latch {
    pub phase: u8,
    pub delay: Delay,
    pub setup: u32,
    pub hold: u32,
}

impl Design {
    pub fn new(schedule: Schedule) -> Design {
        Design { frames: vec![Frame::Schedule(schedule)], nodes: 0, couplings: 0 }
    }

    pub fn nodes(&self) -> usize {
        self.nodes
    }

    pub fn couplings(&self) -> usize {
        self.couplings
    }

    pub fn frames(&self) -> &[Frame] {
        &self.frames
    }

    pub fn input(&mut self, phase: u8, earliest: u32, latest: u32) -> usize {
        self.add_node(Frame::Input { phase, earliest, latest })
    }

    pub fn gate(&mut self, phase: u8, delay: Delay, sources: &[usize]) -> usize {
        let sources = sources.iter().map(|&source| number(source)).collect();
        self.add_node(Frame::Gate { phase, least: delay.least, greatest: delay.greatest, sources })
    }

    pub fn latch(&mut self, latch: Latch) -> usize {
        let Latch { phase, delay, setup, hold } = latch;
        self.add_node(Frame::Latch { phase, least: delay.least, greatest: delay.greatest, setup, hold })
    }

    pub fn feed(&mut self, latch: usize, source: usize) {
        self.frames.push(Frame::Feed { latch: number(latch), source: number(source) });
    }

    pub fn couple(&mut self, victim: usize, aggressor: usize, assisting: u32, opposing: u32) {
        self.couplings += 1;
        let (victim, aggressor) = (number(victim), number(aggressor));
        self.frames.push(Frame::Couple { victim, aggressor, assisting, opposing });
    }

    /// The text of the table, which seals it at the end.
    pub fn text(&self) -> Vec<u8> {
        text_of(self.frames.iter().chain([&Frame::Seal]))
    }

    /// The table, if it is granted whole and can be sealed.
    pub fn table(&self) -> Option<Table> {
        let mut session = Session::new(SIZE);
        for frame in self.frames.iter().chain([&Frame::Seal]) {
            session.put(frame).ok()?;
        }
        session.table().cloned()
    }

    fn add_node(&mut self, frame: Frame) -> usize {
        self.frames.push(frame);
        self.nodes += 1;
        self.nodes - 1
    }
}

/// The lines of frames.
pub fn text_of<'a>(frames: impl IntoIterator<Item = &'a Frame>) -> Vec<u8> {
    let mut text = Vec::new();
    for frame in frames {
        text.extend(frame.line());
        text.push(b'\n');
    }
    text
}

fn number(node: usize) -> u16 {
    u16::try_from(node).expect("a frame names nodes by two bytes")
}
