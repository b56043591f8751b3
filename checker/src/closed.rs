//! Closed sets by brute force: what a judgement says of them is checked against all sets of couplings.

use crate::design::Table;
use crate::rules::Rule;
use crate::verdicts::{seen_outside, Judgement, Verdict};
use crate::windows::{Found, Network, Order, Timing, Window};

/// Up to how many couplings all their sets are gone through.
pub const MOST_COUPLINGS: usize = 10;

/// A set of couplings that is closed, and the windows and latches under it.
pub struct Closed {
    pub flags: Vec<bool>,
    pub timing: Timing,
}

/// All closed sets of a table under a rule.
pub fn closed_sets(table: &Table, rule: Rule) -> Vec<Closed> {
    let network = Network::new(table, Order::HighestFirst);
    let couplings = table.couplings.len();
    let sets =
        (0..1_u64 << couplings).map(|set| (0..couplings).map(|index| set >> index & 1 == 1).collect::<Vec<bool>>());
    sets.filter_map(|flags| {
        let Found::Ended(timing) = network.timing(&flags) else {
            return None;
        };
        let closed = seen_outside(table, rule, &timing.windows, &flags).is_empty();
        closed.then_some(Closed { flags, timing })
    })
    .collect()
}

/// Checks what a judgement says of the closed sets of the table, and answers how many there are, or what is said wrongly.
pub fn check(table: &Table, rule: Rule, judgement: &Judgement) -> Result<usize, String> {
    let closed = closed_sets(table, rule);
    let Some(windows) = &judgement.windows else {
        return match closed.first() {
            Some(set) => Err(format!("gain is told, but the set {:?} is closed", numbers(&set.flags))),
            None => Ok(0),
        };
    };
    if !closed.iter().any(|set| set.flags == judgement.flags) {
        return Err(format!("the flags are no closed set, of which there are {}", closed.len()));
    }
    if let Some(set) = closed.iter().find(|set| !within(&judgement.flags, &set.flags)) {
        return Err(format!("the closed set {:?} does not include the flags", numbers(&set.flags)));
    }
    if let Some(set) = closed.iter().find(|set| !include(&set.timing.windows, windows)) {
        return Err(format!("the windows under the closed set {:?} do not include those shown", numbers(&set.flags)));
    }
    let keeps = |set: &Closed| set.timing.late.is_none() && set.timing.early.is_none();
    let passes = judgement.verdict == Verdict::Pass;
    match closed.iter().find(|set| keeps(set) != passes) {
        Some(set) if !passes => {
            Err(format!("no latch is late or early under the closed set {:?}", numbers(&set.flags)))
        }
        _ if passes && !closed.iter().any(keeps) => {
            Err("some latch is late or early under every closed set".to_string())
        }
        _ => Ok(closed.len()),
    }
}

fn within(inner: &[bool], outer: &[bool]) -> bool {
    inner.iter().zip(outer).all(|(&inner, &outer)| outer || !inner)
}

fn include(outer: &[Window], inner: &[Window]) -> bool {
    outer.iter().zip(inner).all(|(outer, inner)| outer.includes(inner))
}

fn numbers(flags: &[bool]) -> Vec<usize> {
    (0..flags.len()).filter(|&index| flags[index]).collect()
}

#[cfg(test)]
mod tests {
    use super::*;
    use crate::clock::{Phase, Schedule};
    use crate::design::{Coupling, Delay, Node};
    use crate::session::Limits;
    use crate::verdicts::judge;
    use crate::windows::Breach;

    /// An input, two gates that it feeds, of which each is coupled with the other, and a latch which coupling 0 makes late.
    fn table() -> Table {
        let phase = 1;
        let gate = Node::Gate { phase, delay: Delay { least: 1, greatest: 1 }, sources: vec![0] };
        let latch = Node::Latch { phase, delay: Delay { least: 0, greatest: 0 }, setup: 6, hold: 0, source: Some(1) };
        let coupling = |victim, aggressor| Coupling { victim, aggressor, assisting: 0, opposing: 5 };
        Table {
            size: Limits::CLOCKMARK.size,
            schedule: Schedule { period: 10, proximity: 0, phases: vec![Phase { start: 0, width: 5 }] },
            nodes: vec![Node::Input { phase, earliest: 9, latest: 9 }, gate.clone(), gate, latch],
            couplings: vec![coupling(1, 2), coupling(2, 1)],
        }
    }

    fn said_of(rule: Rule, change: impl Fn(&mut Judgement)) -> Result<usize, String> {
        let table = table();
        let mut judgement = judge(&table, rule, Order::HighestFirst);
        change(&mut judgement);
        check(&table, rule, &judgement)
    }

    #[test]
    fn a_right_judgement_is_found_right() {
        assert_eq!(said_of(Rule::Never, |_| {}), Ok(4));
        assert_eq!(said_of(Rule::Always, |_| {}), Ok(1));
    }

    #[test]
    fn a_wrong_judgement_is_found_wrong() {
        let wrong = |rule, change: &dyn Fn(&mut Judgement)| said_of(rule, change).unwrap_err();
        assert!(wrong(Rule::Always, &|judgement| judgement.flags[1] = false).contains("no closed set"));
        assert!(wrong(Rule::Never, &|judgement| judgement.flags[1] = true).contains("does not include the flags"));
        let widen = |judgement: &mut Judgement| judgement.windows.as_mut().unwrap()[2].end += 1;
        assert!(wrong(Rule::Never, &widen).contains("do not include those shown"));
        assert!(wrong(Rule::Never, &|judgement| judgement.windows = None).contains("gain is told"));
        let late = Verdict::Late(Breach { latch: 3, excess: 1 });
        assert!(wrong(Rule::Never, &|judgement| judgement.verdict = late).contains("no latch is late or early"));
        assert!(wrong(Rule::Always, &|judgement| judgement.verdict = Verdict::Pass).contains("late or early"));
    }
}
