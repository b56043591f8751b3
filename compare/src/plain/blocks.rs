//! Nodes in blocks by number, and which blocks lead to which.

use super::circuit::Node;
use std::ops::Range;

const BLOCK: usize = 16;

/// For each block the blocks in which a node has a source in it. A block leads to itself only where a source does not stand
/// before its node.
pub struct Leads(Vec<Vec<bool>>);

/// How many blocks so many nodes are in.
pub fn blocks(nodes: usize) -> usize {
    nodes.div_ceil(BLOCK)
}

/// The block of a node.
pub fn block_of(node: usize) -> usize {
    node / BLOCK
}

/// The numbers of the nodes of a block.
pub fn places(block: usize, nodes: usize) -> Range<usize> {
    BLOCK * block..nodes.min(BLOCK * (block + 1))
}

impl Leads {
    pub fn of(nodes: &[Node]) -> Leads {
        let count = blocks(nodes.len());
        let mut leads = vec![vec![false; count]; count];
        for (v, node) in nodes.iter().enumerate() {
            for source in node.sources().iter().map(|&source| usize::from(source)) {
                if source / BLOCK != v / BLOCK || source >= v {
                    leads[source / BLOCK][v / BLOCK] = true;
                }
            }
        }
        Leads(leads)
    }

    /// Makes every block stale that the block leads to.
    pub fn wake(&self, block: usize, stale: &mut [bool]) {
        for (stale, &led) in stale.iter_mut().zip(&self.0[block]) {
            *stale |= led;
        }
    }
}
