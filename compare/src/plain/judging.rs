//! Rounds from the empty set, and the verdict of the last one.

use super::carried::{Carried, NoEnd};
use super::circuit::{Circuit, Coupling};
use super::tally::Tally;
use checker::rules::Rule;
use checker::verdicts::{Judgement, Verdict};

pub fn judge(circuit: &Circuit, rule: Rule, tally: &mut impl Tally) -> Judgement {
    let mut carried = Carried::begin(circuit);
    let mut flags = vec![false; circuit.couplings.len()];
    let mut rounds = 0;
    loop {
        rounds += 1;
        if let Err(NoEnd { latch }) = carried.find(tally) {
            return Judgement { verdict: Verdict::Gain { latch }, rounds, flags, windows: None };
        }
        if !flag_seen(circuit, rule, &mut carried, &mut flags) {
            let windows = (0..circuit.nodes.len()).map(|v| carried.window(v)).collect();
            return Judgement { verdict: verdict(&carried), rounds, flags, windows: Some(windows) };
        }
    }
}

fn verdict(carried: &Carried) -> Verdict {
    if let Some(breach) = carried.late_latch() {
        Verdict::Late(breach)
    } else if let Some(breach) = carried.early_latch() {
        Verdict::Early(breach)
    } else {
        Verdict::Pass
    }
}

/// Sets the flags of the couplings that the rule sees, which act from then on, and answers whether one was clear before.
/// What the rule is asked of stays as the round found it.
fn flag_seen(circuit: &Circuit, rule: Rule, carried: &mut Carried, flags: &mut [bool]) -> bool {
    let mut fresh = false;
    for (coupling, flag) in circuit.couplings.iter().zip(flags) {
        if !*flag && sees(circuit, rule, carried, coupling) {
            *flag = true;
            fresh = true;
            carried.act(coupling);
        }
    }
    fresh
}

fn sees(circuit: &Circuit, rule: Rule, carried: &Carried, coupling: &Coupling) -> bool {
    match rule {
        Rule::Never => false,
        Rule::Always => true,
        Rule::ThreeOccurrences => sees_three_occurrences(circuit, carried, coupling),
    }
}

fn sees_three_occurrences(circuit: &Circuit, carried: &Carried, coupling: &Coupling) -> bool {
    let clock = &circuit.clock;
    let [victim, aggressor] = [coupling.victim, coupling.aggressor].map(usize::from);
    let [own, other] = [carried.window(victim), carried.window(aggressor)];
    let [to, from] = [circuit.nodes[victim].phase(), circuit.nodes[aggressor].phase()];
    let come_close =
        |shift: i64| own.begin.max(other.begin - shift) <= own.end.min(other.end - shift) + clock.proximity;
    if to == from {
        return come_close(0);
    }
    let nearest = clock.nearest_shift(from, to);
    let forward = clock.forward_shift(from, to);
    let sees_following =
        other.begin - nearest + clock.period <= own.end + clock.proximity && own.end > other.begin - forward;
    let sees_previous =
        own.begin <= other.end + clock.proximity - nearest - clock.period && own.begin <= other.end - forward;
    come_close(nearest) || sees_following || sees_previous
}
