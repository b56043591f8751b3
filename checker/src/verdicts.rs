//! Verdicts: rounds from the empty set to the least closed set of couplings.

use crate::design::Table;
use crate::rules::{Rule, Wire};
use crate::windows::{Breach, Found, Network, Order, Timing, Window};

#[derive(Clone, Copy, Debug, PartialEq, Eq)]
pub enum Verdict {
    Pass,
    /// The lowest latch whose window has no end.
    Gain {
        latch: usize,
    },
    Late(Breach),
    Early(Breach),
}

impl Verdict {
    pub fn number(self) -> u8 {
        match self {
            Verdict::Pass => 0,
            Verdict::Gain { .. } => 64,
            Verdict::Late(_) => 65,
            Verdict::Early(_) => 66,
        }
    }

    pub fn latch(self) -> Option<usize> {
        match self {
            Verdict::Pass => None,
            Verdict::Gain { latch } => Some(latch),
            Verdict::Late(breach) | Verdict::Early(breach) => Some(breach.latch),
        }
    }

    pub fn excess(self) -> i64 {
        match self {
            Verdict::Pass | Verdict::Gain { .. } => 0,
            Verdict::Late(breach) | Verdict::Early(breach) => breach.excess,
        }
    }

    fn of_timing(timing: &Timing) -> Verdict {
        match (timing.late, timing.early) {
            (Some(breach), _) => Verdict::Late(breach),
            (None, Some(breach)) => Verdict::Early(breach),
            (None, None) => Verdict::Pass,
        }
    }
}

#[derive(Clone, Debug, PartialEq, Eq)]
pub struct Judgement {
    pub verdict: Verdict,
    /// How many rounds were made, the last one included.
    pub rounds: usize,
    /// The set of the last round, a flag for each coupling.
    pub flags: Vec<bool>,
    /// The windows under this set; none on gain.
    pub windows: Option<Vec<Window>>,
}

/// Judges a table whose latches are all fed. The order of relaxing changes nothing in the judgement.
pub fn judge(table: &Table, rule: Rule, order: Order) -> Judgement {
    judge_while(table, rule, order, || true).expect("it goes on to the end")
}

/// As `judge`, but there is no judgement if `goes_on`, which is asked before each round, says that no more are to be made.
pub fn judge_while(table: &Table, rule: Rule, order: Order, mut goes_on: impl FnMut() -> bool) -> Option<Judgement> {
    let network = Network::new(table, order);
    let mut flags = vec![false; table.couplings.len()];
    let mut rounds = 0;
    while goes_on() {
        rounds += 1;
        let timing = match network.timing(&flags) {
            Found::Ended(timing) => timing,
            Found::NoEnd { latch } => {
                return Some(Judgement { verdict: Verdict::Gain { latch }, rounds, flags, windows: None });
            }
        };
        let woken = seen_outside(table, rule, &timing.windows, &flags);
        if woken.is_empty() {
            let verdict = Verdict::of_timing(&timing);
            return Some(Judgement { verdict, rounds, flags, windows: Some(timing.windows) });
        }
        for coupling in woken {
            flags[coupling] = true;
        }
    }
    None
}

/// The couplings outside the set that the rule sees with these windows.
pub fn seen_outside(table: &Table, rule: Rule, windows: &[Window], flags: &[bool]) -> Vec<usize> {
    let wire = |node: usize| Wire { phase: table.nodes[node].phase(), window: windows[node] };
    let seen = |&index: &usize| {
        let coupling = &table.couplings[index];
        rule.sees(&table.schedule, wire(coupling.victim), wire(coupling.aggressor))
    };
    (0..flags.len()).filter(|&index| !flags[index]).filter(seen).collect()
}
