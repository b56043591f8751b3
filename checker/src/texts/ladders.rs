//! Ladders: couplings of which each round wakes one more, by the windows that the one before it has widened.

use super::designs;
use super::script::Script;
use super::tours;
use crate::clock::{Phase, Schedule, GREATEST_TIME};
use crate::design::{Coupling, Delay, Node, Table, GREATEST_FIGURE};
use crate::random::Random;

pub fn ladder(random: &mut Random, script: &mut Script) {
    let mut table = if random.one_in(2) { rungs(random) } else { two_victims(random) };
    random.shuffle(&mut table.couplings);
    script.enter(random, &table);
    script.seal_and_verify(random);
    tours::tour(random, script);
}

fn input(phase: u8, time: u32) -> Node {
    Node::Input { phase, earliest: time, latest: time }
}

/// A schedule in which the phase is open for the whole period.
fn schedule(random: &mut Random, period: u32, proximity: u32) -> (Schedule, u8) {
    let count = random.count(1..=4);
    let mut starts: Vec<u32> = (0..count).map(|_| random.within(0..=period - 1)).collect();
    starts.sort_unstable();
    let mut phases: Vec<Phase> =
        starts.into_iter().map(|start| Phase { start, width: random.within(1..=period) }).collect();
    let open = random.index(count);
    phases[open].width = period;
    (Schedule { period, proximity, phases }, open as u8 + 1)
}

/// Each rung is an input, a gate which it feeds, and a gate which this feeds. The window of the last of these is widened
/// by the coupling of the rung, and then meets that of the first gate of the next rung.
fn rungs(random: &mut Random) -> Table {
    let proximity = random.within(0..=5);
    let period = random.within(proximity + 2..=2_000);
    let (schedule, phase) = schedule(random, period, proximity);
    let mut table = designs::empty(schedule);
    let count = if random.one_in(5) { random.count(20..=85) } else { random.count(1..=12) };
    let broken = if random.one_in(4) { Some(random.index(count)) } else { None };
    let mut time = random.within(0..=1_000);
    table.nodes.push(input(phase, time));
    for rung in 0..count {
        let aggressor = table.nodes.len() - 1;
        let delay = random.within(0..=9);
        let opposing = random.within(1..=9);
        let assisting = random.within(0..=delay);
        let victim = table.nodes.len() + 1;
        table.nodes.push(input(phase, time));
        for delay in [delay, 0] {
            let delay = Delay { least: delay, greatest: delay };
            let sources = vec![table.nodes.len() - 1];
            table.nodes.push(Node::Gate { phase, delay, sources });
        }
        table.couplings.push(Coupling { victim, aggressor, assisting, opposing });
        // A rung that is out of reach of the one before it is not woken.
        let beyond = if broken == Some(rung) { 1 } else { 0 };
        let slack = if broken == Some(rung) { 0 } else { random.within(0..=opposing - 1) };
        let up = time + delay + opposing + proximity + beyond - slack;
        let down = (time + delay).checked_sub(assisting + proximity + beyond);
        time = match down {
            Some(down) if assisting > 0 && random.one_in(2) => down,
            _ => up,
        };
    }
    table
}

/// Two gates which follow each other round a ring with a latch, coupled with the same inputs: each coupling of the later
/// gate moves the end of the earlier one's window towards the inputs from before, and each of the earlier gate moves the
/// begin of the later one's window towards them from behind.
fn two_victims(random: &mut Random) -> Table {
    let count = match random.below(8) {
        0 => 125,
        1 => 128,
        2 => random.count(30..=127),
        _ => random.count(1..=10),
    } as u32;
    let amount = random.within(1..=3);
    let proximity = random.within(0..=4);
    let offset = random.within(0..=5);
    // How far all amounts together move an end or a begin. The inputs stand between the end of the earlier gate's window,
    // at `offset`, and the begin of the later one's, at `least`.
    let reach = count * amount;
    let least = reach + 2 * proximity + offset;
    let period = offset + 2 * (reach + proximity) + random.within(offset + 1..=offset + 1_000);
    let (schedule, phase) = schedule(random, period, proximity);
    let mut table = designs::empty(schedule);
    // The ring may gain a tick with the last coupling, and the latch be late by a tick.
    let greatest = if random.one_in(2) { least } else { period - reach + random.within(0..=2) - 1 };
    let setup = if random.one_in(2) { 0 } else { period - offset - reach + random.within(0..=2) - 1 };
    let still = Delay { least: 0, greatest: 0 };
    let (latch, earlier, later) = (1, 2, 4);
    table.nodes.push(input(phase, 0));
    table.nodes.push(Node::Latch { phase, delay: still, setup, hold: 0, source: Some(later) });
    table.nodes.push(Node::Gate {
        phase,
        delay: Delay { least, greatest: greatest.max(least) },
        sources: vec![0, latch],
    });
    table.nodes.push(input(phase, period + offset));
    table.nodes.push(Node::Gate { phase, delay: still, sources: vec![earlier, 3] });
    let broken = if random.one_in(5) { Some(random.within(0..=count - 1)) } else { None };
    for place in 0..count {
        let beyond = u32::from(broken == Some(place));
        let aggressor = table.nodes.len();
        table.nodes.push(input(phase, least - proximity - place * amount - beyond));
        table.couplings.push(Coupling { victim: later, aggressor, assisting: 0, opposing: amount });
        table.couplings.push(Coupling { victim: earlier, aggressor, assisting: amount, opposing: 0 });
    }
    debug_assert!(period + offset <= GREATEST_TIME && least <= GREATEST_FIGURE);
    table
}
