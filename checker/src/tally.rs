//! How often what was compared occurred.

use std::collections::BTreeMap;
use std::fmt;

use crate::compare::Agreed;
use crate::design::Refusal;
use crate::frames::{decode, lines, Frame, KINDS};
use crate::rules::Rule;
use crate::session::Reply;
use crate::texts::Scenario;
use crate::verdicts::Judgement;

const VERDICTS: [(u8, &str); 4] = [(0, "pass"), (64, "gain"), (65, "late"), (66, "early")];

/// The greatest number of rounds in each class.
const ROUNDS: [usize; 8] = [1, 2, 3, 8, 32, 128, 256, 257];

#[derive(Clone, Copy, Debug, Default)]
struct Frames {
    granted: u64,
    refused: u64,
}

/// In how many verdicts that were checked against all sets of couplings how many sets are closed.
#[derive(Clone, Copy, Debug, Default)]
struct ClosedSets {
    none: u64,
    one: u64,
    several: u64,
}

#[derive(Clone, Debug, Default)]
pub struct Tally {
    texts: u64,
    lines: u64,
    closed_sets: ClosedSets,
    scenarios: BTreeMap<Scenario, u64>,
    verdicts: BTreeMap<(u8, u8), u64>,
    refusals: BTreeMap<u8, u64>,
    frames: BTreeMap<u8, Frames>,
    rounds: BTreeMap<usize, u64>,
}

impl Tally {
    pub fn add(&mut self, scenario: Scenario, text: &[u8], agreed: &Agreed) {
        self.texts += 1;
        self.lines += agreed.replies.len() as u64;
        for closed in &agreed.closed_sets {
            match closed {
                0 => self.closed_sets.none += 1,
                1 => self.closed_sets.one += 1,
                _ => self.closed_sets.several += 1,
            }
        }
        *self.scenarios.entry(scenario).or_default() += 1;
        for (line, reply) in lines(text).iter().zip(&agreed.replies) {
            self.add_frame(line, reply);
            match reply {
                Reply::Refused(refusal) => *self.refusals.entry(refusal.number()).or_default() += 1,
                Reply::Judged(rule, judgement) => self.add_judgement(*rule, judgement),
                Reply::Done | Reply::Number(_) => {}
            }
        }
    }

    fn add_frame(&mut self, line: &[u8], reply: &Reply) {
        if let Some(frame) = decode(line).and_then(|bytes| Frame::read(&bytes)) {
            let frames = self.frames.entry(frame.kind()).or_default();
            match reply {
                Reply::Refused(_) => frames.refused += 1,
                _ => frames.granted += 1,
            }
        }
    }

    fn add_judgement(&mut self, rule: Rule, judgement: &Judgement) {
        *self.verdicts.entry((judgement.verdict.number(), rule.byte())).or_default() += 1;
        let class = ROUNDS.into_iter().find(|&most| judgement.rounds <= most).unwrap_or(usize::MAX);
        *self.rounds.entry(class).or_default() += 1;
    }

    pub fn merge(&mut self, other: &Tally) {
        self.texts += other.texts;
        self.lines += other.lines;
        self.closed_sets.none += other.closed_sets.none;
        self.closed_sets.one += other.closed_sets.one;
        self.closed_sets.several += other.closed_sets.several;
        merge_counts(&mut self.scenarios, &other.scenarios);
        merge_counts(&mut self.verdicts, &other.verdicts);
        merge_counts(&mut self.refusals, &other.refusals);
        merge_counts(&mut self.rounds, &other.rounds);
        for (&kind, frames) in &other.frames {
            let known = self.frames.entry(kind).or_default();
            known.granted += frames.granted;
            known.refused += frames.refused;
        }
    }

    /// The verdicts, and the refusals that the program can reach, which never occurred.
    pub fn missing(&self) -> Vec<String> {
        let verdicts = VERDICTS.into_iter().filter(|&(number, _)| self.of_verdict(number) == 0);
        let verdicts = verdicts.map(|(_, name)| format!("the verdict {name}"));
        let reachable = (1..=14).filter(|&number| number != Refusal::Short.number());
        let refusals = reachable.filter(|number| !self.refusals.contains_key(number));
        verdicts.chain(refusals.map(|number| format!("the refusal {number}"))).collect()
    }

    fn of_verdict(&self, number: u8) -> u64 {
        Rule::ALL.iter().map(|rule| self.of_rule(number, *rule)).sum()
    }

    fn of_rule(&self, number: u8, rule: Rule) -> u64 {
        self.verdicts.get(&(number, rule.byte())).copied().unwrap_or(0)
    }
}

fn merge_counts<K: Ord + Copy>(counts: &mut BTreeMap<K, u64>, more: &BTreeMap<K, u64>) {
    for (&key, count) in more {
        *counts.entry(key).or_default() += count;
    }
}

impl fmt::Display for Tally {
    fn fmt(&self, f: &mut fmt::Formatter<'_>) -> fmt::Result {
        writeln!(f, "texts {}, lines {}", self.texts, self.lines)?;
        let ClosedSets { none, one, several } = self.closed_sets;
        writeln!(f, "verdicts checked against all sets of couplings: {}", none + one + several)?;
        writeln!(f, "no set is closed in {none}, one in {one}, several in {several}")?;
        writeln!(f, "\n{:<12}{:>10}", "text", "times")?;
        for (scenario, times) in &self.scenarios {
            writeln!(f, "{:<12}{times:>10}", format!("{scenario:?}").to_lowercase())?;
        }
        writeln!(f, "\n{:<12}{:>10}{:>10}{:>10}{:>10}", "verdict", "times", "never", "three", "always")?;
        for (number, name) in VERDICTS {
            let [never, three, always] = Rule::ALL.map(|rule| self.of_rule(number, rule));
            writeln!(f, "{name:<12}{:>10}{never:>10}{three:>10}{always:>10}", self.of_verdict(number))?;
        }
        writeln!(f, "\n{:<12}{:>10}", "refusal", "times")?;
        for number in 1..=14 {
            writeln!(f, "{number:<12}{:>10}", self.refusals.get(&number).copied().unwrap_or(0))?;
        }
        writeln!(f, "\n{:<12}{:>10}{:>10}", "frame", "granted", "refused")?;
        for (kind, name) in (1..).zip(KINDS) {
            let frames = self.frames.get(&kind).copied().unwrap_or_default();
            writeln!(f, "{name:<12}{:>10}{:>10}", frames.granted, frames.refused)?;
        }
        writeln!(f, "\n{:<12}{:>10}", "rounds", "times")?;
        let mut least = 1;
        for most in ROUNDS {
            let class = if least == most { format!("{most}") } else { format!("{least} to {most}") };
            writeln!(f, "{class:<12}{:>10}", self.rounds.get(&most).copied().unwrap_or(0))?;
            least = most + 1;
        }
        Ok(())
    }
}
