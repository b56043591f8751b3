//! Lines whose fields are at their bounds, past them, or of another kind than is allowed.

use super::clocks;
use super::damage;
use super::script::{number, Script};
use crate::clock::GREATEST_TIME;
use crate::design::{Table, GREATEST_FIGURE};
use crate::frames::Frame;
use crate::random::Random;
use crate::rules::Rule;
use crate::session::Session;

/// A text of suspect lines, granted or not.
pub fn lines(random: &mut Random, script: &mut Script) {
    if !random.one_in(8) {
        let schedule = clocks::lawful(random);
        script.line(&Frame::Schedule(schedule).line());
    }
    for _ in 0..random.count(1..=60) {
        let line = line(random, script.session());
        script.line(&line);
    }
    script.line(&Frame::Seal.line());
    script.verify(random);
}

/// A line that a session may well refuse.
pub fn line(random: &mut Random, session: &Session) -> Vec<u8> {
    let suspect = frame(random, session);
    match random.below(8) {
        0 => damage::digits(random, &suspect.line()),
        1 => damage::frame(random, &suspect),
        _ => suspect.line(),
    }
}

fn frame(random: &mut Random, session: &Session) -> Frame {
    let Some(table) = session.table() else {
        let schedule = if random.one_in(2) { clocks::unlawful(random) } else { clocks::lawful(random) };
        return any_frame(random, None, Frame::Schedule(schedule));
    };
    let schedule = match random.below(3) {
        0 => clocks::unlawful(random),
        1 => clocks::lawful(random),
        _ => clocks::nearby(random, &table.schedule),
    };
    any_frame(random, Some(table), Frame::Schedule(schedule))
}

fn any_frame(random: &mut Random, table: Option<&Table>, schedule: Frame) -> Frame {
    match random.below(24) {
        0..=2 => schedule,
        3..=6 => {
            let (earliest, latest) = span(random, GREATEST_TIME);
            Frame::Input { phase: phase(random, table), earliest, latest }
        }
        7..=11 => {
            let (least, greatest) = span(random, GREATEST_FIGURE);
            let fan = if random.one_in(5) { random.pick(&[0, 5, 6, 255]) } else { random.count(1..=4) };
            let sources = (0..fan).map(|_| node(random, table)).collect();
            Frame::Gate { phase: phase(random, table), least, greatest, sources }
        }
        12..=14 => {
            let (least, greatest) = span(random, GREATEST_FIGURE);
            let setup = figure(random, GREATEST_FIGURE);
            let hold = figure(random, GREATEST_FIGURE);
            Frame::Latch { phase: phase(random, table), least, greatest, setup, hold }
        }
        15 | 16 => Frame::Feed { latch: node(random, table), source: node(random, table) },
        17..=20 => couple(random, table),
        21 => Frame::Verify(random.pick(&Rule::ALL)),
        22 => Frame::Seal,
        _ => Frame::Reopen,
    }
}

fn couple(random: &mut Random, table: Option<&Table>) -> Frame {
    let assisting = figure(random, GREATEST_FIGURE);
    let opposing = figure(random, GREATEST_FIGURE);
    let victim = node(random, table);
    let aggressor = if random.one_in(8) { victim } else { node(random, table) };
    let couple = Frame::Couple { victim, aggressor, assisting, opposing };
    let Some(known) = table.filter(|table| !table.couplings.is_empty() && random.one_in(3)) else {
        return couple;
    };
    let coupling = random.pick(&known.couplings);
    let left = super::designs::room(known, coupling.victim);
    let victim = number(coupling.victim);
    if random.one_in(2) {
        return Frame::Couple { victim, aggressor: number(coupling.aggressor), assisting: 0, opposing };
    }
    Frame::Couple { victim, aggressor, assisting: random.pick(&[left, left.saturating_add(1)]), opposing }
}

fn phase(random: &mut Random, table: Option<&Table>) -> u8 {
    let phases = table.map_or(1, |table| table.schedule.phases.len()) as u8;
    match random.below(16) {
        0 => 0,
        1 => phases.saturating_add(1),
        2 => 255,
        _ => 1 + random.index(usize::from(phases.max(1))) as u8,
    }
}

fn node(random: &mut Random, table: Option<&Table>) -> u16 {
    let count = table.map_or(0, |table| table.nodes.len());
    match random.below(16) {
        0 => u16::MAX,
        1 => number(count),
        2 => number(count + 1),
        _ => number(random.index(count.max(1))),
    }
}

/// Two figures, of which the first is seldom above the second.
fn span(random: &mut Random, limit: u32) -> (u32, u32) {
    let one = figure(random, limit);
    let other = figure(random, limit);
    match random.below(12) {
        0 => (one, other),
        1 => (one.saturating_add(1), one),
        2 => (one, one),
        _ => (one.min(other), one.max(other)),
    }
}

fn figure(random: &mut Random, limit: u32) -> u32 {
    match random.below(48) {
        0 => limit,
        1 => limit + 1,
        2 => u32::MAX,
        3 => limit - 1,
        4 => random.within(0..=limit),
        5..=8 => 0,
        _ => random.within(0..=100),
    }
}
