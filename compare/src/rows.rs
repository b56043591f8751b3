//! The designs that are measured, each of so many nodes and a quarter as many couplings. They are judged under the rule of
//! three occurrences.

use crate::design::{Design, Latch};
use checker::clock::{Phase, Schedule};
use checker::design::Delay;
use checker::random::Random;
use std::collections::HashSet;
use std::ops::Range;

/// What a row of the benchmark measures.
#[derive(Clone, Copy, PartialEq, Eq, Debug)]
pub enum Row {
    Typical,
    Ring,
    Ladder,
    Gain,
    MovingLadder,
}

impl Row {
    pub const ALL: [Row; 5] = [Row::Typical, Row::Ring, Row::Ladder, Row::Gain, Row::MovingLadder];

    pub fn name(self) -> &'static str {
        match self {
            Row::Typical => "typical",
            Row::Ring => "ring",
            Row::Ladder => "ladder",
            Row::Gain => "gain",
            Row::MovingLadder => "moving ladder",
        }
    }

    pub fn design(self, nodes: usize) -> Design {
        match self {
            Row::Typical => typical(nodes),
            Row::Ring => ring(nodes, Excess::None),
            Row::Ladder => ladder(nodes),
            Row::Gain => ring(nodes, Excess::One),
            Row::MovingLadder => moving_ladder(nodes),
        }
    }
}

const SEED: u64 = 20_260_731;

fn exactly(delay: u32) -> Delay {
    Delay { least: delay, greatest: delay }
}

fn one_phase(period: u32, width: u32) -> Schedule {
    Schedule { period, proximity: 0, phases: vec![Phase { start: 0, width }] }
}

/// Two phases which start half a period apart.
fn two_phases(period: u32, width: u32, proximity: u32) -> Schedule {
    let phases = vec![Phase { start: 0, width }, Phase { start: period / 2, width }];
    Schedule { period, proximity, phases }
}

/// Blocks of logic, each a latch with 16 to 30 gates. Each gate has the node before it as a source and up to three more:
/// nodes of its block, an input, or the latch of an earlier block of the same phase. Latches are fed round rings of four
/// blocks, of which some take more than the half period that they have, so that latches pass lateness on, and others less.
/// The blocks that are left over follow each other behind an input. Couplings are of gates with nodes beside them.
fn typical(nodes: usize) -> Design {
    let mut random = Random::new(SEED);
    let mut design = Design::new(two_phases(2000, 900, 10));
    let inputs: Vec<usize> = (0..nodes / 64 + 2).map(|_| input(&mut design, &mut random)).collect();
    let mut blocks: Vec<Block> = Vec::new();
    while design.nodes() < nodes {
        let size = block_size(&mut random, nodes - design.nodes());
        let block = add_block(&mut design, &mut random, &inputs, &blocks, size);
        blocks.push(block);
    }
    feed_blocks(&mut design, &inputs, &blocks);
    couple_neighbours(&mut design, &mut random, &blocks, nodes / 4);
    design
}

/// How long the longest way through a block takes about, by the place of the block in its ring. Half a period is 1000.
const LENGTHS: [u32; 4] = [980, 1030, 900, 820];

/// The places of a latch and its gates.
struct Block(Range<usize>);

impl Block {
    fn latch(&self) -> usize {
        self.0.start
    }

    fn last(&self) -> usize {
        self.0.end - 1
    }
}

fn input(design: &mut Design, random: &mut Random) -> usize {
    let earliest = random.within(1100..=1120);
    design.input(2, earliest, earliest + random.within(0..=30))
}

/// How many of the nodes that are left the next block has: 17 to 31, but that none has fewer at the end.
fn block_size(random: &mut Random, left: usize) -> usize {
    if left <= 31 {
        left
    } else if left < 48 {
        left / 2
    } else {
        random.count(17..=31)
    }
}

fn add_block(design: &mut Design, random: &mut Random, inputs: &[usize], blocks: &[Block], size: usize) -> Block {
    let phase = 1 + (blocks.len() % 2) as u8;
    let start = design.nodes();
    let share = LENGTHS[blocks.len() % 4] / (size as u32 - 1);
    let delay = Delay { least: random.within(10..=15), greatest: random.within(20..=40) };
    design.latch(Latch { phase, delay, setup: 20, hold: 10 });
    for _ in 1..size {
        let greatest = random.within(share * 7 / 8..=share * 9 / 8);
        let delay = Delay { least: random.within(greatest / 2..=greatest * 3 / 4), greatest };
        let sources = sources(design, random, inputs, blocks, start);
        design.gate(phase, delay, &sources);
    }
    Block(start..start + size)
}

/// The sources of the next gate of a block that begins at `start`.
fn sources(design: &Design, random: &mut Random, inputs: &[usize], blocks: &[Block], start: usize) -> Vec<usize> {
    let count = design.nodes();
    let mut sources = vec![count - 1];
    for _ in 0..random.index(4) {
        sources.push(match random.below(8) {
            0 if blocks.len() % 2 == 1 => random.pick(inputs),
            1 if blocks.len() >= 2 => {
                let before = blocks.len() % 2 + 2 * random.index(blocks.len() / 2);
                blocks[before].latch()
            }
            2 => start,
            _ => count - 1 - random.index(count - start),
        });
    }
    sources
}

fn feed_blocks(design: &mut Design, inputs: &[usize], blocks: &[Block]) {
    let in_rings = blocks.len() / 4 * 4;
    for (place, block) in blocks.iter().enumerate() {
        let source = if place % 4 > 0 {
            blocks[place - 1].last()
        } else if place < in_rings {
            blocks[place + 3].last()
        } else {
            inputs[place % inputs.len()]
        };
        design.feed(block.latch(), source);
    }
}

fn couple_neighbours(design: &mut Design, random: &mut Random, blocks: &[Block], count: usize) {
    let mut pairs = HashSet::new();
    while pairs.len() < count {
        let block = &blocks[random.index(blocks.len())];
        let victim = random.count(block.latch() + 1..=block.last());
        let distance = random.count(1..=3);
        let aggressor = if random.one_in(2) { victim - distance } else { victim + distance };
        if aggressor < design.nodes() && pairs.insert((victim, aggressor)) {
            design.couple(victim, aggressor, random.within(0..=1), random.within(1..=4));
        }
    }
}

/// How much a ring gains each time round while all couplings act.
#[derive(Clone, Copy, PartialEq, Eq)]
enum Excess {
    None,
    One,
}

/// One ring of all nodes, latches each of which is fed from the one above it, so that each sweep takes lateness one latch
/// further. The highest latch sends on a lateness of about a tick for each latch, and every latch below it takes off
/// one, so that the lateness goes once round. The couplings, which act from the second round on, give back what their
/// victims take off.
fn ring(nodes: usize, excess: Excess) -> Design {
    let period = 20_000;
    let mut design = Design::new(one_phase(period, period / 2));
    let couplings = nodes / 4;
    let is_victim = |latch: usize| latch % 4 == 1 && latch / 4 < couplings;
    let highest = nodes - 1;
    for latch in 0..nodes {
        let greatest = if latch == highest {
            period + highest as u32 + u32::from(excess == Excess::One)
        } else {
            period - 1 - u32::from(is_victim(latch))
        };
        design.latch(Latch { phase: 1, delay: Delay { least: period - 100, greatest }, setup: 20, hold: 10 });
    }
    for latch in 0..nodes {
        design.feed(latch, (latch + 1) % nodes);
    }
    for victim in (0..nodes).filter(|&latch| is_victim(latch)) {
        design.couple(victim, victim + 1, 0, 1);
    }
    design
}

/// Rungs of four nodes: an input, the victim that it disturbs, a latch that the victim feeds, and a gate behind this and
/// the victim. The victims follow each other. The window of each ends later by what the couplings before it add, and meets
/// that of its input, a moment, only when all of them act, so that each round wakes one coupling more.
fn ladder(nodes: usize) -> Design {
    let period = 20_000;
    let (delay, opposing) = (10, 3);
    let mut design = Design::new(one_phase(period, period));
    for rung in 0..nodes / 4 {
        let time = period + (delay + opposing) * rung as u32;
        let aggressor = design.input(1, time, time);
        let before = if rung == 0 { aggressor } else { aggressor - 3 };
        let victim = design.gate(1, exactly(delay), &[before]);
        let latch = design.latch(Latch { phase: 1, delay: exactly(delay), setup: 20, hold: 10 });
        design.gate(1, exactly(delay), &[victim, latch]);
        design.feed(latch, victim);
    }
    for rung in 0..nodes / 4 {
        design.couple(4 * rung + 1, 4 * rung, 0, opposing);
    }
    design
}

/// Latches each of which is fed from the one above it, and below them, in the order of the numbers, a ladder that feeds the
/// highest of them. Its victims are in two phases by turns, and the window of each begins a tick before that of the one
/// before it, so that each meets the input of its phase when all couplings before it act. Each coupling makes the highest
/// latch later by a tick, and with it all others, a latch in each sweep.
fn moving_ladder(nodes: usize) -> Design {
    let half = 10_000;
    let rungs = nodes / 4;
    let mut design = Design::new(two_phases(2 * half, half, 0));
    let last_phase = 1 + ((rungs - 1) % 2) as u8;
    let phase = 3 - last_phase;
    let latches = nodes - rungs - 2;
    for _ in 0..latches {
        let delay = Delay { least: half + half / 2, greatest: 2 * half };
        design.latch(Latch { phase, delay, setup: 20, hold: 10 });
    }
    let time = half + 1 + rungs as u32;
    let aggressors = [design.input(1, time, time), design.input(2, time, time)];
    for rung in 0..rungs {
        let before = if rung == 0 { aggressors[0] } else { design.nodes() - 1 };
        design.gate(1 + (rung % 2) as u8, exactly(half - 1), &[before]);
    }
    for latch in 0..latches {
        design.feed(latch, if latch + 1 < latches { latch + 1 } else { nodes - 1 });
    }
    for rung in 0..rungs {
        design.couple(latches + 2 + rung, aggressors[rung % 2], 0, 1);
    }
    design
}
