//! Books that are full of nodes, of couplings or of both, and what is refused then.

use super::clocks;
use super::designs::{self, Scale, Shape};
use super::script::{number, Script};
use super::tours;
use crate::design::{Coupling, Table};
use crate::frames::Frame;
use crate::random::Random;

pub fn full(random: &mut Random, script: &mut Script) {
    let schedule = clocks::lawful(random);
    let scale = Scale::of(random, &schedule);
    let mut table = designs::empty(schedule);
    let nodes = random.pick(&[40, 254, 255, 256, 256]);
    designs::extend(random, &mut table, Shape { nodes, couplings: 0 }, scale);
    let couplings = random.pick(&[0, 3, 255, 256, 256]);
    fill(random, &mut table, couplings, scale);
    script.enter(random, &table);
    for _ in 0..random.count(3..=12) {
        script.line(&one_more(random, &table).line());
    }
    script.seal_and_verify(random);
    tours::tour(random, script);
}

/// Adds couplings up to the count, as far as there are pairs.
fn fill(random: &mut Random, table: &mut Table, couplings: usize, scale: Scale) {
    for _ in 0..8 * couplings {
        if table.couplings.len() < couplings {
            designs::couple(random, table, scale);
        }
    }
}

/// A row that is refused where the book is full, whatever else is the matter with it.
fn one_more(random: &mut Random, table: &Table) -> Frame {
    let phase = random.pick(&[0, 1, 1, 255]);
    let least = random.pick(&[0, 5, u32::MAX]);
    let greatest = random.pick(&[5, 5, u32::MAX]);
    match random.below(5) {
        0 => Frame::Input { phase, earliest: least, latest: greatest },
        1 => Frame::Gate { phase, least, greatest, sources: random.pick(&[vec![], vec![0], vec![300], vec![0; 5]]) },
        2 => Frame::Latch { phase, least, greatest, setup: random.pick(&[0, u32::MAX]), hold: 0 },
        3 if !table.couplings.is_empty() => {
            let Coupling { victim, aggressor, .. } = random.pick(&table.couplings);
            Frame::Couple { victim: number(victim), aggressor: number(aggressor), assisting: least, opposing: 0 }
        }
        _ => {
            let victim = number(random.index(table.nodes.len() + 1));
            let aggressor = number(random.index(table.nodes.len() + 1));
            Frame::Couple { victim, aggressor, assisting: 0, opposing: least }
        }
    }
}
