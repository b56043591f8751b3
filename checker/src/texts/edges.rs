//! Designs with one figure at a value where the verdict, its latch, the rounds or the flags change.

use super::clocks;
use super::designs::{self, Shape};
use super::knobs::Knob;
use super::script::Script;
use super::tours;
use crate::design::Table;
use crate::frames::Frame;
use crate::random::Random;
use crate::rules::Rule;
use crate::verdicts::judge;
use crate::windows::Order;

/// A text in which the table is verified at one value of a figure or the next, where what is printed changes.
pub fn edge(random: &mut Random, script: &mut Script) {
    let shape = match random.below(12) {
        0 => Shape { nodes: random.count(40..=160), couplings: random.count(10..=100) },
        1 | 2 => Shape { nodes: random.count(10..=40), couplings: random.count(0..=24) },
        _ => Shape { nodes: random.count(2..=14), couplings: random.count(0..=8) },
    };
    let schedule = clocks::lawful(random);
    let mut table = designs::table(random, schedule, shape);
    write_at_edge(random, script, &mut table);
}

/// Enters the table with one of its figures changed, if it finds one with which something changes.
pub fn write_at_edge(random: &mut Random, script: &mut Script, table: &mut Table) {
    let rule = random.pick(&[Rule::ThreeOccurrences, Rule::ThreeOccurrences, Rule::ThreeOccurrences, Rule::Always]);
    let mut found = None;
    for _ in 0..12 {
        let knob = Knob::of(random, table);
        found = values_at_edge(knob, table, rule).map(|(low, high)| (knob, low, high));
        if found.is_some() {
            break;
        }
    }
    let Some((knob, low, high)) = found else {
        script.enter(random, table);
        script.seal_and_verify(random);
        return tours::tour(random, script);
    };
    let mut values = [low, high];
    random.shuffle(&mut values);
    knob.set(table, values[0]);
    script.enter(random, table);
    script.frame(random, &Frame::Seal);
    script.frame(random, &Frame::Verify(rule));
    if knob.is_of_clock() {
        knob.set(table, values[1]);
        script.frame(random, &Frame::Schedule(table.schedule.clone()));
        script.frame(random, &Frame::Verify(rule));
    }
    script.verify(random);
    tours::tour(random, script);
}

/// What is to change at an edge.
fn outcome(table: &Table, rule: Rule) -> (u8, Option<usize>, usize, Vec<bool>) {
    let judgement = judge(table, rule, Order::HighestFirst);
    (judgement.verdict.number(), judgement.verdict.latch(), judgement.rounds, judgement.flags)
}

/// Two values of the figure, one apart, between which the outcome changes; none if it is the same at both ends.
fn values_at_edge(knob: Knob, table: &Table, rule: Rule) -> Option<(u32, u32)> {
    let mut table = table.clone();
    let (mut low, mut high) = knob.range(&table).into_inner();
    let mut at = |value: u32| {
        knob.set(&mut table, value);
        outcome(&table, rule)
    };
    let first = at(low);
    if low >= high || at(high) == first {
        return None;
    }
    while high - low > 1 {
        let middle = low + (high - low) / 2;
        if at(middle) == first {
            low = middle;
        } else {
            high = middle;
        }
    }
    Some((low, high))
}
