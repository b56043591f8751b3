//! Windows found by relaxing, against the paths and rings of small tables, gone through one by one.

use checker::design::{Node, Table};
use checker::session::{replies, Limits};
use checker::texts::text;
use checker::windows::{shift, Breach, Found, Network, Order, Timing, Window};

const MOST_NODES: usize = 8;

/// What all paths without a repeated node show.
struct Paths<'a> {
    table: &'a Table,
    least: Vec<i64>,
    greatest: Vec<i64>,
    latest: Vec<Option<i64>>,
    earliest: Vec<Option<i64>>,
    gaining: Vec<bool>,
}

impl<'a> Paths<'a> {
    fn of(table: &'a Table, flags: &[bool]) -> Self {
        let count = table.nodes.len();
        let mut least: Vec<i64> = table.nodes.iter().map(|node| i64::from(node.delay().least)).collect();
        let mut greatest: Vec<i64> = table.nodes.iter().map(|node| i64::from(node.delay().greatest)).collect();
        for (coupling, _) in table.couplings.iter().zip(flags).filter(|(_, &set)| set) {
            least[coupling.victim] -= i64::from(coupling.assisting);
            greatest[coupling.victim] += i64::from(coupling.opposing);
        }
        let (latest, earliest) = (vec![None; count], vec![None; count]);
        let mut paths = Paths { table, least, greatest, latest, earliest, gaining: vec![false; count] };
        for start in 0..count {
            let (late, early) = match &table.nodes[start] {
                Node::Input { earliest, latest, .. } => (i64::from(*latest), i64::from(*earliest)),
                Node::Latch { phase, .. } => {
                    let opening = table.schedule.opening_edge(*phase);
                    (opening, opening)
                }
                Node::Gate { .. } => continue,
            };
            paths.follow(&mut vec![start], late, Some(early), late);
        }
        paths
    }

    /// Goes on from a path with all its steps that enter no node again, and marks the start of a ring that gains.
    fn follow(&mut self, path: &mut Vec<usize>, late: i64, short: Option<i64>, start: i64) {
        let node = path[path.len() - 1];
        self.latest[node] = self.latest[node].max(Some(late));
        if let Some(early) = short {
            self.earliest[node] = Some(self.earliest[node].map_or(early, |other| early.min(other)));
        }
        let goes_on_short = path.len() == 1 || !self.table.nodes[node].is_latch();
        for next in 0..self.table.nodes.len() {
            if !self.table.nodes[next].sources().contains(&node) {
                continue;
            }
            let shift = shift(self.table, node, next);
            let late = late + self.greatest[node] - shift;
            let short = short.filter(|_| goes_on_short).map(|early| early + self.least[node] - shift);
            if next == path[0] {
                self.gaining[next] |= late > start;
            } else if !path.contains(&next) {
                path.push(next);
                self.follow(path, late, short, start);
                path.pop();
            }
        }
    }

    fn led_to_by_gain(&self) -> Vec<bool> {
        let mut led_to = self.gaining.clone();
        for _ in &self.table.nodes {
            for (node, row) in self.table.nodes.iter().enumerate() {
                led_to[node] |= row.sources().iter().any(|&source| led_to[source]);
            }
        }
        led_to
    }

    fn found(&self) -> Found {
        let led_to = self.led_to_by_gain();
        let nodes = || self.table.nodes.iter().enumerate();
        if let Some((latch, _)) = nodes().find(|(node, row)| led_to[*node] && row.is_latch()) {
            return Found::NoEnd { latch };
        }
        let begin = |node: usize| match &self.table.nodes[node] {
            Node::Latch { phase, .. } => self.table.schedule.opening_edge(*phase),
            _ => self.earliest[node].expect("a path"),
        };
        let end = |node: usize| self.latest[node].expect("a path");
        let breach = |excess: &dyn Fn(usize) -> Option<i64>| {
            let excesses = nodes().filter_map(|(latch, _)| Some(Breach { latch, excess: excess(latch)? }));
            excesses.into_iter().find(|breach| breach.excess > 0)
        };
        let late = breach(&|latch| {
            let Node::Latch { setup, source: Some(source), .. } = &self.table.nodes[latch] else { return None };
            let arrival = end(*source) + self.greatest[*source] - shift(self.table, *source, latch);
            Some(arrival - (i64::from(self.table.schedule.period) - i64::from(*setup)))
        });
        let early = breach(&|latch| {
            let Node::Latch { hold, source: Some(source), .. } = &self.table.nodes[latch] else { return None };
            let arrival = begin(*source) + self.least[*source] - shift(self.table, *source, latch);
            Some(i64::from(*hold) - arrival)
        });
        let windows = nodes().map(|(node, _)| Window { begin: begin(node), end: end(node) }).collect();
        Found::Ended(Timing { windows, late, early })
    }
}

#[test]
fn relaxing_finds_what_the_paths_show() {
    let (mut ended, mut without_end) = (0, 0);
    for number in 0..600 {
        let text = text(5, number);
        replies(&text.bytes, Limits::CLOCKMARK, Order::HighestFirst, |table, _, judgement| {
            if table.nodes.len() > MOST_NODES {
                return;
            }
            let found = Paths::of(table, &judgement.flags).found();
            match found {
                Found::Ended(_) => ended += 1,
                Found::NoEnd { .. } => without_end += 1,
            }
            for order in [Order::HighestFirst, Order::Shuffled(text.shuffling)] {
                assert_eq!(Network::new(table, order).timing(&judgement.flags), found, "text {number}: {table:?}");
            }
        });
    }
    assert!(ended > 100 && without_end > 100, "{ended} ended, {without_end} without end");
}
