//! A design that is entered, judged, changed and judged again.

use super::clocks;
use super::designs::{self, Shape};
use super::script::{node_frame, number, Script};
use crate::design::Table;
use crate::frames::Frame;
use crate::random::Random;
use crate::session::Stage;

pub fn design(random: &mut Random, script: &mut Script) {
    let shape = Shape::any(random);
    let schedule = clocks::lawful(random);
    let table = designs::table(random, schedule, shape);
    before_opening(random, script);
    script.enter(random, &table);
    unfed_seal(random, script);
    script.seal_and_verify(random);
    tour(random, script);
}

fn before_opening(random: &mut Random, script: &mut Script) {
    while random.one_in(3) {
        let unlawful = clocks::unlawful(random);
        script.line(&Frame::Schedule(unlawful).line());
    }
}

/// Seals a draft that has an unfed latch, which is fed afterwards.
fn unfed_seal(random: &mut Random, script: &mut Script) {
    let Some(table) = script.session().table() else {
        return;
    };
    if table.nodes.len() == table.size.nodes || !random.one_in(4) {
        return;
    }
    let latch = number(table.nodes.len());
    let phase = designs::phase(random, &table.schedule);
    let frame = Frame::Latch { phase, least: 0, greatest: random.within(0..=9), setup: 0, hold: 0 };
    let source = number(random.index(table.nodes.len() + 1));
    script.line(&frame.line());
    script.line(&Frame::Seal.line());
    script.line(&Frame::Feed { latch, source }.line());
}

/// Retimes a sealed table, or reopens and extends it, and verifies it again.
pub fn tour(random: &mut Random, script: &mut Script) {
    while random.one_in(2) {
        match random.below(4) {
            0 => retime(random, script),
            1 => retime_unlawfully(random, script),
            2 => reopen(random, script),
            _ => {
                script.refused(random);
                script.verify(random);
            }
        }
    }
}

fn retime(random: &mut Random, script: &mut Script) {
    let Some(table) = script.session().table() else {
        return;
    };
    let schedule = if random.one_in(3) {
        clocks::lawful_of(random, table.schedule.phases.len())
    } else {
        clocks::nearby(random, &table.schedule)
    };
    script.frame(random, &Frame::Schedule(schedule));
    script.verify(random);
}

fn retime_unlawfully(random: &mut Random, script: &mut Script) {
    let schedule = if random.one_in(2) { clocks::lawful(random) } else { clocks::unlawful(random) };
    script.frame(random, &Frame::Schedule(schedule));
    script.verify(random);
}

fn reopen(random: &mut Random, script: &mut Script) {
    if script.session().stage() != Some(Stage::Sealed) {
        return;
    }
    if !script.frame(random, &Frame::Reopen) {
        return;
    }
    if random.one_in(3) {
        script.frame(random, &Frame::Reopen);
    }
    for frame in additions(random, script.session().table()) {
        script.frame(random, &frame);
    }
    script.seal_and_verify(random);
}

/// Some nodes, the feeds of new latches, other feeds of old ones, and couplings.
fn additions(random: &mut Random, table: Option<&Table>) -> Vec<Frame> {
    let Some(table) = table else {
        return Vec::new();
    };
    let mut wider = table.clone();
    let scale = designs::Scale::of(random, &table.schedule);
    let shape = Shape { nodes: random.count(0..=3), couplings: random.count(0..=4) };
    designs::extend(random, &mut wider, shape, scale);
    let nodes = wider.nodes[table.nodes.len()..].iter().map(node_frame);
    let latches = wider.nodes.iter().enumerate().filter(|(_, node)| node.is_latch());
    let feeds = latches.filter_map(|(latch, node)| {
        let old = latch < table.nodes.len();
        let source = if old { random.index(wider.nodes.len()) } else { node.sources()[0] };
        let feed = Frame::Feed { latch: number(latch), source: number(source) };
        (!old || random.one_in(6)).then_some(feed)
    });
    let feeds: Vec<Frame> = feeds.collect();
    let couplings = wider.couplings[table.couplings.len()..].iter().map(|coupling| Frame::Couple {
        victim: number(coupling.victim),
        aggressor: number(coupling.aggressor),
        assisting: coupling.assisting,
        opposing: coupling.opposing,
    });
    nodes.chain(feeds).chain(couplings).collect()
}
