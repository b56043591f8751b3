//! The records that say what rows of a table are overwritten with.

use checker::design::{Coupling, Node};
use checker::random::Random;
use compare::design::SIZE;

pub const LENGTH: usize = 22;

/// The sources of a gate at most, each of which has a place in a record.
const SOURCES: usize = 4;

pub type Record = [u8; LENGTH];

/// A record of any kind, row, phase and figures, of which many are small or numbers of nodes.
pub fn any(random: &mut Random) -> Record {
    let mut record = [0; LENGTH];
    for byte in &mut record {
        *byte = if random.one_in(2) { random.number() as u8 } else { random.below(3) as u8 };
    }
    record[0] = random.pick(&[0, 1, 2, 2, 3, 4, 4, 5, 5, 6, 255]);
    let rows = random.pick(&[8, 64, 300, SIZE.nodes + 8]);
    put_number(&mut record, 1, random.index(rows));
    record[3] = random.pick(&[0, 1, 1, 2, 3, 16, 17, 255]);
    if random.one_in(2) {
        for place in [4, 6, 12, 14, 16, 18, 20] {
            put_number(&mut record, place, random.index(rows));
        }
    }
    if record[0] == 2 {
        record[21] = random.pick(&[0, 1, 2, 3, 4, 4, 5, 255]);
    }
    record
}

/// A record which writes nothing.
pub fn without_effect(random: &mut Random) -> Record {
    let mut record = any(random);
    if random.one_in(2) {
        record[0] = random.count(6..=255) as u8;
    } else {
        put_number(&mut record, 1, random.count(SIZE.nodes..=0xFFFF));
    }
    record
}

/// The record that writes a row of the node table.
pub fn of_node(number: usize, node: &Node) -> Record {
    let mut record = [0; LENGTH];
    put_number(&mut record, 1, number);
    record[3] = node.phase();
    match node {
        Node::Input { earliest, latest, .. } => {
            record[0] = 1;
            put_figures(&mut record, 4, &[*earliest, *latest]);
        }
        Node::Gate { delay, sources, .. } => {
            record[0] = 2;
            put_figures(&mut record, 4, &[delay.least, delay.greatest]);
            for (place, &source) in sources.iter().take(SOURCES).enumerate() {
                put_number(&mut record, 12 + 2 * place, source);
            }
            record[21] = sources.len() as u8;
        }
        Node::Latch { delay, setup, hold, source, .. } => {
            record[0] = if source.is_some() { 4 } else { 3 };
            put_figures(&mut record, 4, &[delay.least, delay.greatest, *setup, *hold]);
            put_number(&mut record, 20, source.unwrap_or(0));
        }
    }
    record
}

/// The record that writes a row of the coupling table.
pub fn of_coupling(number: usize, coupling: &Coupling) -> Record {
    let mut record = [0; LENGTH];
    record[0] = 5;
    put_number(&mut record, 1, number);
    put_number(&mut record, 4, coupling.victim);
    put_number(&mut record, 6, coupling.aggressor);
    put_figures(&mut record, 8, &[coupling.assisting, coupling.opposing]);
    record
}

fn put_number(record: &mut Record, place: usize, number: usize) {
    record[place..place + 2].copy_from_slice(&(number as u16).to_be_bytes());
}

fn put_figures(record: &mut Record, place: usize, figures: &[u32]) {
    for (bytes, figure) in record[place..].chunks_exact_mut(4).zip(figures) {
        bytes.copy_from_slice(&figure.to_be_bytes());
    }
}
