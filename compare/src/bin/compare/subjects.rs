//! Random texts, small and large.

use crate::designs::design;
use checker::frames::Frame;
use checker::random::Random;
use checker::rules::Rule;
use checker::texts;
use checker::texts::clocks;
use compare::design::{text_of, Design, SIZE};
use compare::rows::Row;

#[derive(Clone, Copy, PartialEq, Eq, PartialOrd, Ord, Debug)]
pub enum Scale {
    /// A text that the checker makes for the program: lines of all sorts.
    Small,
    /// A design that the benchmark measures, of some hundred nodes.
    Row,
    Medium,
    Large,
    /// As many nodes and couplings as a book takes, and then one or two more of each, which it refuses.
    Full,
}

pub struct Subject {
    pub scale: Scale,
    /// Lines of all sorts.
    pub text: Vec<u8>,
    /// A text without verdicts, most often one of a sealed table.
    pub loaded: Vec<u8>,
}

/// Of every twenty subjects.
fn scale(number: u64) -> Scale {
    match number % 20 {
        0 => Scale::Full,
        1..=3 => Scale::Large,
        4..=9 => Scale::Medium,
        10 | 11 => Scale::Row,
        _ => Scale::Small,
    }
}

pub fn subject(random: &mut Random, seed: u64, number: u64) -> Subject {
    let scale = scale(number);
    let design = match scale {
        Scale::Small => return small(seed, number),
        Scale::Row => random.pick(&Row::ALL).design(random.count(20..=300)),
        Scale::Medium => sized(random, 1..=800),
        Scale::Large => sized(random, 800..=SIZE.nodes),
        Scale::Full => design(random, SIZE.nodes, SIZE.couplings),
    };
    let mut frames = design.frames().to_vec();
    if scale == Scale::Full {
        overfill(random, &mut frames, &design);
    }
    let text = text_of(&judged(random, frames));
    Subject { scale, text, loaded: design.text() }
}

/// A text of the checker. It is loaded up to its first verify, now and then past it.
fn small(seed: u64, number: u64) -> Subject {
    let text = texts::text(seed, number).bytes;
    let lines: Vec<&[u8]> = text.split_inclusive(|&byte| byte == b'\n').collect();
    let end = lines.iter().position(|line| line.starts_with(b"07")).unwrap_or(lines.len());
    let end = if number.is_multiple_of(8) { lines.len() } else { end };
    let loaded = lines[..end].concat();
    Subject { scale: Scale::Small, text, loaded }
}

fn sized(random: &mut Random, nodes: std::ops::RangeInclusive<usize>) -> Design {
    let nodes = random.count(nodes);
    let couplings = random.index(nodes).min(SIZE.couplings);
    design(random, nodes, couplings)
}

/// Puts a node or two behind the last node that is granted, and a coupling or two at the end.
fn overfill(random: &mut Random, frames: &mut Vec<Frame>, design: &Design) {
    for _ in 0..random.count(1..=2) {
        frames.push(Frame::Couple { victim: 1, aggressor: 0, assisting: 0, opposing: 0 });
        frames.insert(1 + design.nodes(), Frame::Input { phase: 1, earliest: 0, latest: 0 });
    }
}

/// The frames with a seal, and then verdicts and changes between them.
fn judged(random: &mut Random, mut frames: Vec<Frame>) -> Vec<Frame> {
    let schedule = match &frames[0] {
        Frame::Schedule(schedule) => schedule.clone(),
        _ => unreachable!("a design begins with its schedule"),
    };
    frames.push(Frame::Seal);
    frames.push(Frame::Verify(random.pick(&Rule::ALL)));
    for _ in 0..random.index(3) {
        match random.below(4) {
            0 => frames.push(Frame::Schedule(clocks::nearby(random, &schedule))),
            1 => frames.extend([Frame::Reopen, Frame::Feed { latch: random.index(40) as u16, source: 0 }, Frame::Seal]),
            2 => frames.push(Frame::Input { phase: 1, earliest: 0, latest: 0 }),
            _ => {}
        }
        frames.push(Frame::Verify(random.pick(&Rule::ALL)));
    }
    frames
}
