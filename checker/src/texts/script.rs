//! A text under way, with the book as it stands after its lines.

use super::suspects;
use crate::design::{Node, Table};
use crate::frames::Frame;
use crate::random::Random;
use crate::rules::Rule;
use crate::session::{Limits, Session};

pub struct Script {
    bytes: Vec<u8>,
    session: Session,
    /// Once in how many places a line that is refused is put in, if ever.
    mischief: Option<u64>,
}

impl Script {
    pub fn new(random: &mut Random) -> Self {
        let mischief = random.pick(&[None, Some(30), Some(12), Some(4)]);
        Script { bytes: Vec::new(), session: Session::new(Limits::CLOCKMARK.size), mischief }
    }

    pub fn session(&self) -> &Session {
        &self.session
    }

    pub fn end(self) -> Vec<u8> {
        self.bytes
    }

    /// Adds a line, and answers whether it is granted.
    pub fn line(&mut self, line: &[u8]) -> bool {
        self.bytes.extend(line);
        self.bytes.push(b'\n');
        self.session.put_line(line).is_ok()
    }

    /// Adds a frame, after lines that are refused, now and then, and answers whether it is granted.
    pub fn frame(&mut self, random: &mut Random, frame: &Frame) -> bool {
        while self.mischief.is_some_and(|times| random.one_in(times)) {
            self.refused(random);
        }
        self.line(&frame.line())
    }

    /// Adds a line that is refused.
    pub fn refused(&mut self, random: &mut Random) {
        for _ in 0..10 {
            let line = suspects::line(random, &self.session);
            if self.session.clone().put_line(&line).is_err() {
                self.line(&line);
                return;
            }
        }
    }

    /// Enters the rows of a table into a book that is not open yet: feeds and couplings in any order, as soon as the nodes
    /// that they name are there or later.
    pub fn enter(&mut self, random: &mut Random, table: &Table) {
        self.granted(random, &Frame::Schedule(table.schedule.clone()));
        let mut waiting = feeds_and_couplings(table);
        random.shuffle(&mut waiting);
        let early = random.one_in(2);
        for (number, node) in table.nodes.iter().enumerate() {
            self.granted(random, &node_frame(node));
            if early && random.one_in(4) {
                let (ready, later) = waiting.into_iter().partition(|frame| highest(frame) <= number);
                waiting = later;
                self.granted_all(random, ready);
            }
        }
        self.granted_all(random, waiting);
    }

    /// Seals a draft and verifies it by rules in any order, some more than once.
    pub fn seal_and_verify(&mut self, random: &mut Random) {
        self.frame(random, &Frame::Seal);
        self.verify(random);
    }

    pub fn verify(&mut self, random: &mut Random) {
        let rules: &[&[Rule]] = &[
            &[Rule::ThreeOccurrences],
            &[Rule::ThreeOccurrences],
            &[Rule::Never, Rule::ThreeOccurrences, Rule::Always],
            &[Rule::Always, Rule::ThreeOccurrences],
            &[Rule::ThreeOccurrences, Rule::Never, Rule::ThreeOccurrences],
            &[Rule::Always, Rule::Never],
        ];
        for &rule in random.pick(rules) {
            self.frame(random, &Frame::Verify(rule));
        }
    }

    fn granted_all(&mut self, random: &mut Random, frames: Vec<Frame>) {
        for frame in frames {
            if let Frame::Feed { latch, .. } = frame {
                if random.one_in(10) {
                    self.granted(random, &Frame::Feed { latch, source: latch });
                }
            }
            self.granted(random, &frame);
        }
    }

    /// Adds a frame of a table, which is granted.
    fn granted(&mut self, random: &mut Random, frame: &Frame) {
        let granted = self.frame(random, frame);
        debug_assert!(granted, "{frame:?} of a table is refused");
    }
}

pub fn node_frame(node: &Node) -> Frame {
    match node {
        Node::Input { phase, earliest, latest } => Frame::Input { phase: *phase, earliest: *earliest, latest: *latest },
        Node::Gate { phase, delay, sources } => Frame::Gate {
            phase: *phase,
            least: delay.least,
            greatest: delay.greatest,
            sources: sources.iter().map(|&source| number(source)).collect(),
        },
        Node::Latch { phase, delay, setup, hold, .. } => {
            Frame::Latch { phase: *phase, least: delay.least, greatest: delay.greatest, setup: *setup, hold: *hold }
        }
    }
}

fn feeds_and_couplings(table: &Table) -> Vec<Frame> {
    let latches = table.nodes.iter().enumerate().filter(|(_, node)| node.is_latch());
    let feeds = latches.flat_map(|(latch, node)| {
        let feed = move |&source: &usize| Frame::Feed { latch: number(latch), source: number(source) };
        node.sources().iter().map(feed)
    });
    let couplings = table.couplings.iter().map(|coupling| Frame::Couple {
        victim: number(coupling.victim),
        aggressor: number(coupling.aggressor),
        assisting: coupling.assisting,
        opposing: coupling.opposing,
    });
    feeds.chain(couplings).collect()
}

/// The highest node that a feed or a coupling names.
fn highest(frame: &Frame) -> usize {
    match frame {
        Frame::Feed { latch: one, source: other } | Frame::Couple { victim: one, aggressor: other, .. } => {
            usize::from(*one.max(other))
        }
        _ => 0,
    }
}

pub fn number(node: usize) -> u16 {
    u16::try_from(node).expect("a text names few nodes")
}
